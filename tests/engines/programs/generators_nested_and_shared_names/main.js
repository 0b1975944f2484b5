import { print } from "host";
function* outer(n) {
  let x = n;
  function* inner(n) { let x = n * 10; while (n-- > 0) { let y = yield x + n; x += y || 0; } return x; }
  let r = yield* inner(x);
  for (let x of inner(1)) yield [x, r].join();
  return x;
}
let it = outer(2), r;
for (const v of [0, 5, 7, 0, 0]) { r = it.next(v); print(r.value, r.done); }
print(it.next().done);

import { print } from "host";
function* g() {
  let fs = [];
  for (let i = 0; i < 3; i++) { let k = yield i; fs.push(() => k + i); i += 0; }
  for (const x of ["a", "b"]) { let k = yield x; fs.push(() => x + (k += "+")); }
  return fs;
}
let o = g(), r = o.next();
while (!r.done) r = o.next(r.value + "!");
r.value.forEach(f => print(f()));
r.value.forEach(f => print(f()));

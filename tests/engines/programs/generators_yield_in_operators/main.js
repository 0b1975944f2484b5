import { print } from "host";
function* g() {
  print((yield 1) + (yield 2), (yield 3) * (yield 4) - (yield 5));
  print(!(yield 6), typeof (yield 7), -(yield 8), void (yield 9));
  let x = 1, y = 2;
  x += yield 10;
  print(x + (x = 100, yield 11), x, y ** (yield 12), (yield 13) in { a: 1 }, (yield 14) instanceof Object);
  print((yield 15, 5), yield, yield 16);
}
let sent = [0, 10, 20, 3, 4, 5, 0, "t", 8, 9, 7, 1, 3, "a", {}, 1, "p", "q"], o = g();
for (let v of sent) { let r = o.next(v); if (r.done) break; }

import { print, count } from "host";
function* g() {
  let x = 1, o = { n: 10, m(a, b) { return this.n + "/" + a + "/" + b; } };
  print(x + (yield "a") + x);
  x += yield "b"; print(x);
  o.n += yield "c"; print(o.n);
  o[yield "d"] = yield "e"; print(o.k);
  print(o.m(yield "f", ...(yield "g")));
  print(`${yield "h"}-${x}-${yield "i"}`);
  print([yield "j", , ...(yield "k"), yield "l"].join());
  let p = { [yield "m"]: yield "n", get q() { return 3; }, [yield "o"](v) { return v; } };
  print(p.mm, p.q, p.oo(4));
  print((yield "p") ? yield "q" : yield "r");
  print((yield "s") && (yield "t"), (yield "u") || (yield "v"));
  print((yield "w") ** (yield "x"), typeof (yield "y"), !(yield "z"), -(yield "A"));
  print(new (yield "B")(yield "C").v);
  let t = (yield "D").n, u = (yield "E")[yield "F"]; print(t, u);
  delete o[yield "G"]; print("n" in o, (yield "H") in o);
  print((yield "I", yield "J"));
  return yield yield yield "K";
}
class K { constructor(v) { this.v = v; } }
const sent = { a: 5, b: 2, c: 3, d: "k", e: 8, f: 1, g: [2, 3], h: "x", i: 9, j: 1, k: "yz", l: 2, m: "mm", n: 6, o: "oo", p: 0, r: "no", s: 1, t: 2, u: 0, v: 3, w: 2, x: 5, y: "text", z: 0, A: 7, B: K, C: "new", D: { n: 1 }, E: [4, 5], F: 1, G: "n", H: "m", I: 0, J: 12, K: "k1" };
let o = g(), r = o.next(), seen = "";
while (!r.done) { let key = r.value; seen += key; r = o.next(key in sent ? sent[key] : "more"); }
print(seen, r.value);

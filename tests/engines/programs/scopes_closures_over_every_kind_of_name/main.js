import { print } from "host";
let fs = [];
function f(p, { q }, [r], s = p + 1, ...rest) {
  var v = 1; let l = 2; const c = 3; function g() {} class K {}
  try { throw 4; } catch (e) { fs.push(() => [p, q, r, s, rest.length, v, l, c, typeof g, typeof K, e, arguments.length, this.t].join()); }
  fs.push(() => { p++; q++; r++; s++; v++; l++; rest.push(0); g = 1; K = 2; });
}
f.call({ t: "this" }, 1, { q: 2 }, [3], undefined, 5, 6);
print(fs[0]());
fs[1]();
print(fs[0]());

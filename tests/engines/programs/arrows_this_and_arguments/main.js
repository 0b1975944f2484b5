import { print } from "host";
function F() {
  this.k = 1;
  let f = () => { let g = () => this.k + arguments.length; return g(); };
  return f();
}
print(F.call({}, 1, 2));
let o = { k: "o", f() { let out = []; [1, 2].forEach(x => { out.push(this.k + x); }); return out.join(); }, g: () => this };
print(o.f(), o.g() === undefined);
let h = function () { return () => this; };
print(h.call(7)(), h.call(7).call(8), h().apply(9, []));

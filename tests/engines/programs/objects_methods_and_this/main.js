import { print } from "host";
let o = { n: 1, f() { return this; }, g: function () { return this; }, h: () => this, i: { n: 2, f() { return this.n; } } };
print(o.f() === o, o.g() === o, o.h(), o.i.f(), o["f"]().n);
let { f } = o;
print(f(), (true && o.f)(), (o.f, o.f)(), (o.f = o.f)());
print(o.f.call(o.i).n, [function () { return this.length; }][0](), [1, function () { return this[0]; }][1]());

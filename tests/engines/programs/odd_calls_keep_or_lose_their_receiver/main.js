import { print } from "host";
let o = { n: 1, m() { return this === undefined ? "none" : this.n; }, get g() { return this.m; }, deep: { n: 2 } };
o.deep.m = o.m;
print(o.m(), (o.m)(), ((o.m))(), (0, o.m)(), (o.x = o.m)(), o["m"](), o.g(), o.deep.m(), (o.deep || o).m(), [o.m][0] === o.m);
print((() => o.m)()(), (true ? o.m : 1)(), (o.m || 1)(), (o.deep).m.call(o), o.m.apply(o.deep, []), o.m.call(undefined));
let list = [o.m]; list.n = 3; print(list[0]());
function F(n) { this.n = n; this.k = function () { return new.target === undefined ? this.n : "new"; }; }
print(new F(4).k(), new (new F(5).k)().n === undefined, new F(6).n, new (F)(7).n);

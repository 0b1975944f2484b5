import { print } from "host";
class A { m(x) { return "A" + x + this.t; } get g() { return "g" + this.t; } }
class B extends A { }
class C extends B { m(x) { return "C" + super.m(x + 1); } get g() { return "C" + super.g; } }
class D extends C { constructor(t) { super(); this.t = t; } m(...x) { return "D" + super.m(...x); } }
class E extends D { constructor() { let f = () => { super("e"); return this; }; print(f() === this); } m(x) { return [1].length && super["m"](x) + super.absent; } }
print(new E().m(5), new E().g, new D("d").m(6));
class F extends E { constructor() { try { this; } catch (e) { print(e instanceof ReferenceError); } super(); print(new.target === F); } get g() { return (() => (() => super.g)())(); } }
print(new F().g, new F() instanceof A);
function P(a) { this.a = a; print(new.target === undefined, this instanceof P); }
P.prototype.say = function () { return "say" + this.a; };
class Q extends P { say() { return super.say() + "!"; } }
print(new Q(3).say(), new P(4).say());
class R extends Q { constructor() { return { say() { return "own"; } }; } }
print(new R().say(), new R() instanceof R);
class S extends P { constructor() { super(...arguments); return undefined; } }
print(new S(8, 9).a);
let T = class U extends S { static t() { return typeof U; } }; print(T.t());

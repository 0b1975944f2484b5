import { print } from "host";
function F() { return new.target; }
print(F() === undefined, new F() instanceof F, F.call({}) === undefined);
class A { constructor() { this.t = new.target; this.in = (() => new.target)(); } m() { return new.target; } }
class B extends A { constructor() { super(); this.u = new.target; } }
let b = new B();
print(b.t === B, b.in === B, b.u === B, b.m() === undefined, new A().t === A);
function G() { if (!new.target) return new G(); this.ok = true; }
print(G().ok, new G().ok);
let o = { f() { return new.target; }, get g() { return new.target; } };
print(o.f(), o.g);

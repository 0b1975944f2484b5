import { print } from "host";
function f(g = () => this, h = () => arguments.length) { return [g() === this, h()].join(); }
print(f.call({}), f.call({}, undefined, undefined));
class A { constructor(f = () => this) { this.f = f; } }
let a = new A();
print(a.f() === a);
class B extends A { constructor(g = () => super()) { g(); this.b = 1; } }
print(new B().b);

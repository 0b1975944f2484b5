import { print } from "host";
function F() { let f = () => [arguments.length, new.target === F, this === undefined].join(); return f(1, 2, 3); }
print(F(1), typeof new F(1, 2));
function* g() { let f = () => arguments; arguments[0] = "set"; yield f()[0]; yield arguments.length; yield* arguments; }
print([...g(1, 2)].join());
class A { constructor() { this.k = (() => (() => new.target)())() === A; } static s() { return new.target === undefined; } m() { return (() => arguments.length + typeof new.target)(); } }
print(new A().k, new (class extends A { })().k, A.s(), new A().m(1, 2));
let o = { f() { return () => arguments.length; }, get g() { return arguments.length; }, set g(v) { print(arguments.length, arguments[0]); } };
print(o.f(1, 2)(), o.g); o.g = 4;

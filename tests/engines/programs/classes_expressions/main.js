import { print } from "host";
let A = class { m() { return 1; } }, o = { c: class { n() { return 2; } } };
print(new A().m(), new o.c().n(), new (class { constructor(x) { this.x = x; } })(3).x, new class { k() { return 4; } }().k());
let f = (C = class { v() { return "default"; } }) => new C().v();
print(f(), f(class { v() { return "own"; } }));
print((class {}, 5), typeof (class {}));

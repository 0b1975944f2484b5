import { print } from "host";
class A { constructor(a, b = 5, ...r) { this.s = a + b; this.n = r.length; } }
let a = new A(...[1]);
print(a.s, a.n);
a = new A(...[1, 2], ...[3, 4], 5);
print(a.s, a.n);
function F() { this.n = arguments.length; }
print(new F(..."abc").n);

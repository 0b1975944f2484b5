import { print } from "host";
class A { constructor() { print("A", new.target === A); } }
class B extends A {
  constructor(k) {
    if (k === 0) this;
    if (k === 1) return { k: 4 };
    super();
    if (k === 2) super();
    if (k === 4) return 5;
    if (k === 5) return undefined;
    this.k = "own";
  }
}
function t(f) { try { print(f().k); } catch (e) { print(e instanceof ReferenceError, e instanceof TypeError); } }
for (let k = 0; k < 6; k++) t(() => new B(k));
t(() => A.call(Object.create(A.prototype)));

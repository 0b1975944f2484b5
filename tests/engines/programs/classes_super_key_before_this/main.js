import { print } from "host";
class A { m() { return "m"; } }
let key = { toString() { print("converted"); return "m"; } };
class B extends A {
  constructor() {
    try { super[(print("key"), key)]; } catch (e) { print(e instanceof ReferenceError); }
    super();
    print(super[key]());
  }
}
new B();

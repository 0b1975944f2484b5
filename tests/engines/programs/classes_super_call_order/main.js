import { print } from "host";
let log = t => { print(t); return t; };
class A { constructor(...a) { print("A", ...a); } }
class B extends A { constructor() { print("before"); super(log("x"), ...[log("y"), "z"]); print("after"); } }
new B();

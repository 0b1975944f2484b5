import { print } from "host";
class A {}
class B extends A { constructor() { try { return; } finally { super(); } } }
print(new B() instanceof B);

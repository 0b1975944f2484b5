import { print } from "host";
class A {}
class B extends A { constructor() { try { return {}; } finally { print("fin"); return { k: 1 }; } } }
print(new B().k);
class C extends A { constructor(k) { super(); l: try { if (k) return 5; } finally { if (k === 2) break l; } this.k = "end"; } }
print(new C(0).k, new C(2).k);
try { new C(1); } catch (e) { print(e instanceof TypeError); }

import { print } from "host";
class A { self() { return A; } }
let B = A, a = new A();
A = null;
print(a.self() === B, A);
let C = class D { self() { return D; } set(v) { D = v; } };
print(new C().self() === C, typeof D1);
try { new C().set(1); } catch (e) { print(e instanceof TypeError); }
var D1;
try { class E { [E]() {} } } catch (e) { print(e instanceof ReferenceError); }
try { class F extends F {} } catch (e) { print(e instanceof ReferenceError); }
try { new G(); } catch (e) { print(e instanceof ReferenceError); }
class G {}

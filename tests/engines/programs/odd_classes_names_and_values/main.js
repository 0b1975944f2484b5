import { print } from "host";
let C = class D { static d() { return D; } set(v) { try { D = v; } catch (e) { print(e instanceof TypeError); } } };
print(C.d() === C); new C().set(1);
class E { f() { return E; } }
let e = new E(), F = E; E = 5; print(e.f() === F, E);
try { class G extends G { } } catch (x) { print(x instanceof ReferenceError); }
try { class H { [H]() { } } } catch (x) { print(x instanceof ReferenceError); }
try { new I(); } catch (x) { print(x instanceof ReferenceError); }
class I { }
print(typeof I, new I().constructor === I);

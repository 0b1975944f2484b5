import { print } from "host";
class A {}
class B extends A {}
function F() {}
let b = new B(), f = new F();
print(b instanceof B, b instanceof A, b instanceof Object, f instanceof F, f instanceof A, 1 instanceof F, null instanceof F, "s" instanceof String);
F.prototype = A.prototype;
print(f instanceof F, new A() instanceof F, Object.create(B.prototype) instanceof A);
try { b instanceof 5; } catch (e) { print(e instanceof TypeError); }
try { b instanceof {}; } catch (e) { print(e instanceof TypeError); }
F.prototype = 3;
try { f instanceof F; } catch (e) { print(e instanceof TypeError); }
print(3 instanceof F, [] instanceof Array, A instanceof Object, (() => 1) instanceof Object);

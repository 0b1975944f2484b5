import { print } from "host";
class A { m() { return 1; } }
try { A.prototype = {}; } catch (e) { print(e instanceof TypeError); }
A.prototype.m = () => 2;
A.prototype.n = function () { return this.m() + 1; };
print(new A().n());
try { delete A.prototype; } catch (e) { print(e instanceof TypeError); }
let a = new A();
a.m = () => 10;
print(a.n(), delete a.m, a.n());

import { print } from "host";
function F(n) { this.n = n; }
F.made = F; F.inner = { F };
print(new F(1).n, new F.made(2).n, new F.inner.F(3).n, new (F.inner.F)(4).n, new F.inner["F"](5).n, new F().n);
function give() { return F; }
print(new (give())(6).n, new (give().made)(7).n, typeof new give());
F.prototype.get = function () { return this.n; };
print(new F(8).get(), (new F(9)).get(), new F(10)["get"]());
try { new (F.none)(); } catch (e) { print(e instanceof TypeError); }
try { new F(print("argument")).none(print("more")); } catch (e) { print(e instanceof TypeError); }
try { undefined.x(print("never")); } catch (e) { print(e instanceof TypeError); }
try { (5)(print("evaluated")); } catch (e) { print(e instanceof TypeError); }
try { new 5(print("evaluated too")); } catch (e) { print(e instanceof TypeError); }
try { new (() => 1, F)(...5); } catch (e) { print(e instanceof TypeError); }
print("abc".charAt(1), (5).toString(), true.toString(), [1, [2, [3]]].toString(), "x".indexOf("y"));

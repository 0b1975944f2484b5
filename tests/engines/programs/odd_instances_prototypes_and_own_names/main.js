import { print } from "host";
function F() { } F.prototype = { tag: "old" }; let f = new F(); F.prototype = { tag: "new" }; print(f.tag, new F().tag, f instanceof F, new F() instanceof F);
F.prototype = 5; print(new F() instanceof Object, typeof new F().toString, ({}) instanceof Object, Object.create(null) instanceof Object);
try { f instanceof F; } catch (e) { print(e instanceof TypeError); }
try { f instanceof {}; } catch (e) { print(e instanceof TypeError); }
let o = Object.create({ inherited: 1, get both() { return this.own; } }); o.own = 2; print(o.inherited, o.both, o.hasOwnProperty("own"), o.hasOwnProperty("inherited"), "inherited" in o, Object.prototype.hasOwnProperty.call(o, "both"));
class A { } class B extends A { } let b = new B(); print(b instanceof A, b instanceof B, b.constructor === B, B.prototype.constructor === B, A.prototype.constructor === A, b.hasOwnProperty("constructor"));
B.prototype.added = 3; print(b.added); A.prototype.above = function () { return this.added + 1; }; print(b.above());
try { B.prototype = {}; } catch (e) { print(e instanceof TypeError); }
print(Object.prototype.toString.call(null), Object.prototype.toString.call([]), ({}).toString(), Object.prototype.toString.call("s"), ({}).valueOf.call(o) === o);
let e = new TypeError("message"); print(e.message, e instanceof Error, e instanceof TypeError, e instanceof RangeError, Error("called").message, typeof e.toString, e.hasOwnProperty("message"), Error.prototype.name, TypeError.prototype.name);

import { print } from "host";
function show(f) { try { let r = f(); print(r.value, r.done); } catch (e) { print("threw", e); } }
function* g() { try { print("in"); yield 1; } finally { print("never"); } }
let o = g(); show(() => o.throw(1)); show(() => o.next()); show(() => o.return(4)); show(() => o.throw(2));
function* h() { return 5; }
o = h(); show(() => o.next()); show(() => o.next(3)); show(() => o.throw("t")); show(() => o.return());
o = h(); show(() => o.return()); show(() => o.next());
print(h() instanceof h, g() instanceof h, h.prototype === g.prototype, typeof h.prototype);
h.prototype.more = function () { return "more"; };
print(h().more(), typeof g().more);
let own = Object.create(h());
try { own.next(); } catch (e) { print(e instanceof TypeError); }
try { h().next.call({}); } catch (e) { print(e instanceof TypeError); }

import { print } from "host";
let o = {}, log = v => { print(v); return v; };
try { o.f(log(1)); } catch (e) { print(e instanceof TypeError); }
try { (void 0)(log(2)); } catch (e) { print(e instanceof TypeError); }
try { new (o.g)(log(3)); } catch (e) { print(e instanceof TypeError); }
try { o.a.b(log(4)); } catch (e) { print(e instanceof TypeError); }
let f = () => "old";
print(f(f = () => "new"));
print(f());
o.m = function () { return "old"; };
print(o.m(o.m = function () { return "new"; }), o.m());

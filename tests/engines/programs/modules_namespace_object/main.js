import { print } from "host";
import * as ns from "./a.js";
import * as again from "./a.js";
print(ns.x, ns.f(), ns.default, ns.none, ns === again, typeof ns);
ns.inc();
print(ns.x, "x" in ns, "none" in ns);
try { ns.x = 1; } catch (e) { print(e instanceof TypeError); }
try { ns.none = 1; } catch (e) { print(e instanceof TypeError); }
try { delete ns.x; } catch (e) { print(e instanceof TypeError); }
print(delete ns.none, ns["x"], ns[`${"in"}c`] === ns.inc);
let { x, f: g, none = "d" } = ns;
print(x, g(), none, ns.self === ns, ns.self.x);
print(ns.method(), (0, ns.method)());

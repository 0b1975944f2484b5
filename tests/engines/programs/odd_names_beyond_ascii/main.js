import { print } from "host";
import * as ns from "./ñ.js";
import { ñ, é as e } from "./ñ.js";
let é = 1, o = { é, ö: 2, "ü": 3, π() { return this.ö; }, get ß() { return "s"; } };
print(o.é, o.ö, o["ü"], o.ü, o.π(), o.ß, o["\u00e9"]);
o.é = 4; o.ö += 5; o.ü++; print(o.é, o["\u00f6"], o.ü, "é" in o, delete o.é, o.é);
let { ö, ü: x, é: y = "none" } = o; print(ö, x, y); ({ ö: o.new_ } = o); print(o.new_);
class Ä { é() { return "m"; } static ö() { return "s"; } get ü() { return 6; } }
class Ö extends Ä { é() { return "over " + super.é(); } }
print(new Ö().é(), typeof Ö.ö, new Ö().ü);
print(ñ, e, ns.ñ, ns.é, "ñ" in ns, typeof ns.ö);

import { print } from "host";
import f, { change } from "./f.js";
import C from "./c.js";
import A from "./a.js";
import g from "./g.js";
import e from "./e.js";
import o from "./o.js";
import n, { n as m, bump } from "./n.js";
import * as self from "./main.js";
export default class { static s() { return typeof self.default; } }
print(f(), change(), f === undefined, C.name2(), new A().a, [...g()].join(), e, o.k, n, m); bump(); print(n, m);
print(self.default.s(), typeof self);

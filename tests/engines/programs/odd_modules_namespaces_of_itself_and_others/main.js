import { print } from "host";
import * as self from "./main.js";
import * as other from "./sub/other.js";
export { other, self as me };
export const k = 1;
export let late;
try { print(self.after); } catch (e) { print(e instanceof ReferenceError); }
export const after = 2;
print(self.me === self, self.me.me.k, self.other.up.k, other.up === self, typeof self.late, "late" in self, self.none, "toString" in self);
for (const f of [() => { self.k = 1; }, () => { self.none = 1; }, () => { delete self.k; }, () => { self.me.other.v++; }]) try { f(); print("fine"); } catch (e) { print(e instanceof TypeError); }
print(delete self.none, other.f(), other["f"](), (0, other.f)(), other.v); late = 5; print(self.late, other.up.late);
let { k: taken, late: [] = [], other: { v } } = { k: self.k, other }; print(taken, v);

import { print } from "host";
import { b, setB } from "./b.js";
import * as c from "./c.js";
export let a = "a0";
export function setA(v) { a = v; }
export { a as renamed };
print("main", a, b, c.c, c.again);
setB("b1"); print(b, c.seeB());
c.push(); print(a, b, c.c);
try { c.c = 1; } catch (e) { print(e instanceof TypeError); }
try { delete c.c; } catch (e) { print(e instanceof TypeError); }
print("c" in c, "none" in c, c.none, typeof c.default, c.default);

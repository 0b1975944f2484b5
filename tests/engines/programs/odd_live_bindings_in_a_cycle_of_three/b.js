import { print } from "host";
import { c, push } from "./c.js";
import { a, setA } from "./main.js";
export let b = "b0";
export const setB = (v) => { b = v; };
try { print(a); } catch (e) { print("a", e instanceof ReferenceError); }
try { setA("early"); } catch (e) { print("setA", e instanceof ReferenceError); }
print("b", c);

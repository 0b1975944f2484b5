import { print } from "host";
import { c } from "./c.js";
import { a, early } from "./a.js";
export function b() { return "b" + c; }
print("b", typeof a);
export const later = () => early;

import { print } from "host";
import * as ns from "./a.js";
print(`${ns}`, ns + "", ns == "text");
let o = { [ns]: "keyed" };
print(o.text);

import { print } from "host";
import { a, b, c, own } from "./b.js";
import * as all from "./b.js";
print(a, b, c, own, "default" in all, "a" in all, all.default, all.own);

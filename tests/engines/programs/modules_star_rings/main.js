import { print } from "host";
import { a, b } from "./a.js";
import * as ns from "./b.js";
print(a, b, ns.a, ns.b);

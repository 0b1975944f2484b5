import { print } from "host";
import * as ns from "./s.js";
print("k" in ns, ns.k, ns.p, ns.q, "same" in ns, ns.same);

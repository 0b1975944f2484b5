import { print } from "host";
import { x, y, d, z } from "./b.js";
import { inc } from "./a.js";
print(x, y, d, z);
inc();
print(x, y, d, z);

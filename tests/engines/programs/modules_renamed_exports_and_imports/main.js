import { print } from "host";
import { a as x, b, c as if1, default as d, class as k } from "./a.js";
print(x, b, if1, d, k);

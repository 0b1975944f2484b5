import { print } from "host";
print(f(), x);
var x = f() + 1;
import { f } from "./a.js";
print(x);

import { print } from "host";
import { next, reset, current } from "./ids.js";
import { use } from "./user.js";
print(next(), next(), use(), current);
reset(10);
print(use(), current, next());

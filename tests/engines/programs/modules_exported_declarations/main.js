import { print } from "host";
import { a, b, c, d, e, F, g, h, i, j } from "./a.js";
print(a, b, c, d(), [...e()].join(), new F().f(), g, h, i.join(), j);

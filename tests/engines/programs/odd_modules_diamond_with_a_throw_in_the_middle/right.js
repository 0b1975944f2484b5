import { print } from "host";
import { n, up } from "./base.js";
up(); print("right", n);
throw new RangeError(print("thrown"));

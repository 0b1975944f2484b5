import { print } from "host";
import { a } from "./a.js";
print("main", a());

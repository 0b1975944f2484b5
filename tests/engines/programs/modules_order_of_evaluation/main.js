import { print } from "host";
import "./d.js";
import { a } from "./a.js";
import "./b.js";
print("main", a);
import "./c.js";

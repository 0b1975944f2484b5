import { print } from "host";
print("main begins");
import "./a.js";
print("never");

import { print } from "host";
import "./left.js";
import "./right.js";
print("never");

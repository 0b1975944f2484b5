import { print } from "host";
import "./b.js";
print("a");
throw "stop";

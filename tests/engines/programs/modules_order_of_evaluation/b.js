import { print } from "host";
import "./d.js";
print("b");

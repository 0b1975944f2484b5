import { print } from "host";
import f from "./f.js";
print(f());

import { print } from "host";
import f, { change } from "./f.js";
print(f());
change();
print(f);

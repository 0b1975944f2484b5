import { print } from "host";
import { a } from "./deep/a.js";
import { a as again } from "./deep/../deep/./a.js";
import { up } from "./deep//er/../b.js";
print(a === again, up());

import { print } from "host";
import { n } from "./er/c.js";
print("a", n);
export const a = {};

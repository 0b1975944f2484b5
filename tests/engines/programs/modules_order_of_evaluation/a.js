import { print } from "host";
import "./b.js";
print("a");
export let a = "A";
import "./c.js";

import { print } from "host";
import f from "./f.js";
export let early = f() + " early";
print("g");

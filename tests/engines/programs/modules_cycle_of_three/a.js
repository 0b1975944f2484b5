import { print } from "host";
import { b } from "./b.js";
export function a() { return "a" + b(); }
export let early = "late value";
print("a", b());

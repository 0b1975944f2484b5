import { print } from "host";
print("a first");
export function f() { return 1; }

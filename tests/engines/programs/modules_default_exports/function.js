import { print } from "host";
print(typeof f, f());
export default function f() { return "f"; }

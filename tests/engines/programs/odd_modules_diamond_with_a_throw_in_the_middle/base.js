import { print } from "host";
export let n = 0;
export function up() { n++; }
print("base");

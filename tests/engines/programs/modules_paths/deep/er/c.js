import { print } from "host";
print("c");
export let n = 5;

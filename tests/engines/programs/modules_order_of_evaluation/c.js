import { print } from "host";
print("c");
export * from "./e.js";

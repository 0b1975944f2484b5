import { print } from "host";
import { a } from "./main.js";
export let total = 0;
export function* b(n) { total += n; yield n; if (n > 0) print("back", yield* a(n - 1)); }

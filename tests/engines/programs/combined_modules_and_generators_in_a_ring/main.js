import { print } from "host";
import { b, total } from "./b.js";
export function* a(n) { print("a", n); if (n > 0) yield* b(n - 1); return n; }
print([...b(3)].join(), total);

import { print } from "host";
try { x = print("right"); } catch (e) { print(e instanceof ReferenceError); }
let x;
print(x);

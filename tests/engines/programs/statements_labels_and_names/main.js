import { print } from "host";
let a = 1;
a: for (;;) { let a = 2; print(a); break a; }
print(a);
$: { print: { break $; } }
print("end");

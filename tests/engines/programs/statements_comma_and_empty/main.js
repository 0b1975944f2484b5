import { print } from "host";
;;;
let x = (print(1), print(2), 3);
print(x);
{ ; }
for (let i = (0, 1), j = 2; i < j; i++, j += 0) print(i, j);

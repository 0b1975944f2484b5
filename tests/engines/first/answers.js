import { print, count } from "host";
const a = count();
let b = a + "x";
print(b, 1 + 2);

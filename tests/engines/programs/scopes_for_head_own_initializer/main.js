import { print } from "host";
try { for (let i = i; i < 1; i++) ; } catch (e) { print(e instanceof ReferenceError); }
for (let i = 0, j = i + 1; i < 1; i++) print(i, j);

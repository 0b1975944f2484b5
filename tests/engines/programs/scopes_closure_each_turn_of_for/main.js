import { print } from "host";
let fs = [];
for (let i = 0; i < 3; i++) fs.push(() => i);
fs.forEach(f => print(f()));

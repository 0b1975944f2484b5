import { print } from "host";
let fs = [];
for (let i = 0; i < 4; i++) {
  if (i === 1) continue;
  fs.push(() => i);
  if (i === 2) i++;
}
fs.forEach(f => print(f()));

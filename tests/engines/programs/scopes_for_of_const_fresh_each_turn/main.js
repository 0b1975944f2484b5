import { print } from "host";
let fs = [];
for (const x of [1, 2, 3]) {
  let y = x * 10;
  fs.push(() => x + y++);
}
fs.forEach(f => print(f(), f()));

import { print } from "host";
let fs = [];
for (let i = 0; i < 3; i++) {
  for (const j of [10, 20]) {
    let k = i + j;
    fs.push(() => { k++; return k + i; });
  }
}
fs.forEach(f => print(f(), f()));

import { print } from "host";
let i = 0, fs = [];
while (i < 3) {
  let k = i * 2;
  fs.push(() => k++);
  i++;
}
do {
  let k = i;
  fs.push(() => k--);
  i--;
} while (i > 1);
fs.forEach(f => print(f(), f()));

import { print } from "host";
let fs = [];
for (let i = 0; i < 3; i++) {
  fs.push(f);
  function f() { return d + i; }
  let d = 10 * i;
}
fs.forEach(f => print(f()));
print(fs[0] === fs[1]);

import { print } from "host";
let fs = [];
for (let n = 0; n < 3; n++) switch (n) {
  case 0: let q = "a" + n; fs.push(() => q); break;
  case 1: fs.push(() => { try { return q; } catch (e) { return e instanceof ReferenceError; } }); break;
  default: { let q = "own"; fs.push(() => q); } fs.push(f);
  function f() { return "f" + n; }
}
fs.forEach(f => print(f()));

import { print } from "host";
let fs = [];
for (let i = 0; i < 3; i++) try { throw { a: i, b: [i * 2] }; } catch ({ a, b: [c] }) { fs.push(() => a++ + c); }
fs.forEach(f => print(f(), f()));
try { throw 1; } catch (e) {
  let e2 = e + 1;
  print(e2);
  { let e = 9; print(e); }
  e = 4;
  print(e);
}

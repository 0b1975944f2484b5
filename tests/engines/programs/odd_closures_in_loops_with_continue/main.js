import { print } from "host";
let fs = [];
for (let i = 0, j = 10; i < 6; i++, j--) {
  if (i % 2) continue;
  fs.push(() => i + ":" + j, () => { j += 100; return j; });
  if (i === 2) { i++; continue; }
  let k = i * 2;
  fs.push(() => k++);
}
for (const f of fs) print(f(), f());
let gs = [], n = 0;
while (n < 4) { let m = n++; if (m === 1) continue; { let m = n * 10; gs.push(() => m); } gs.push(() => m); }
do { const c = n--; if (c === 2) continue; gs.push(() => c); } while (n > 0);
for (const [a, b = a] of [[1], [2, 3], [4]]) { if (a === 2) continue; gs.push(() => a + b); }
for (var v of "ab") { let w = v; gs.push(() => v + w); }
print(gs.join === undefined, gs.length);
let out = ""; gs.forEach((f) => { out += f() + " "; }); print(out);
for (let i = 0; i < 2; fs.push(() => i), i++) ;
print(fs.pop()(), fs.pop()());
for (let i = (fs.push(() => i), 0); i < 2; i++) ;
print(fs.pop()());
for (let f = () => f, i = 0; i < 1; i++) print(f() === f);

import { print } from "host";
function* g() { try { yield 1; yield 2; yield 3; } finally { print("closed"); } }
for (let x of g()) { print(x); if (x === 2) break; }
let [a, b] = g();
let [c, ...d] = g();
print(a, b, c, d.join(), [...g()].length);
try { for (let x of g()) throw "t"; } catch (e) { print(e); }
function f() { for (let x of g()) return x; }
print(f());

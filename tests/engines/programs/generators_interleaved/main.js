import { print } from "host";
function* g(n) { while (true) { print(n); yield n; n += 2; } }
let a = g(0), b = g(1);
a.next(); b.next(); b.next(); a.next(); a.next();
function* inner(tag) { for (let i = 0; i < 3; i++) yield tag + i; }
let all = [inner("x"), inner("y"), inner("z")], out = [];
for (let i = 0; i < 9; i++) out.push(all[i * 2 % 3].next().value);
print(out.join());

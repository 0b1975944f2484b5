import { print, read } from "host";
function* g() { try { yield read(1); yield read(2); } catch (e) { print("caught", e); yield read(3); } finally { print("fin"); } }
for (let x of g()) print(x);
let o = g();
o.next();

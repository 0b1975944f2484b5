import { print } from "host";
for (let i = 0; i < 4; i++) { switch (i) { case 0: continue; case 1: break; case 2: print("two"); default: print("rest", i); continue; } print("after", i); }
s: switch (1) { case 1: for (;;) { break s; } print("no"); }
function f(x) { switch (x) { case 1: return "one"; case 2: throw "two"; } return "none"; }
try { print(f(1), f(3)); f(2); } catch (e) { print(e); }

import { print, read } from "host";
function* g(name) { try { yield name + 1; yield name + 2; } finally { print(name + "f"); } }
let gs = [g("a"), g("b"), g("c")];
for (let i = 0; i < 6; i++) print(gs[read()].next().value);
gs[1].return();

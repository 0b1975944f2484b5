import { print } from "host";
let log = [];
function f() { try { log.push("t"); return log.join(); } finally { log.push("f"); } }
print(f(), log.join());
function g(n) { try { if (n) return g(n - 1); throw n; } catch (e) { return "c" + e; } finally { log.push(n); } }
print(g(3), log.join());

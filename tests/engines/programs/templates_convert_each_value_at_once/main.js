import { print } from "host";
let a = { toString() { print("a"); return "A"; } };
function f() { print("f"); return "F"; }
print(`${a}${f()}`);
let b = { valueOf() { print("never"); return 1; }, toString() { print("b"); return "B"; } };
print(`${b}-${b}`, `${b}` + b.toString());
try { print(`${{ toString() { throw "t"; } }}${f()}`); } catch (e) { print(e); }
try { print(`${{ toString() { return {}; }, valueOf() { return {}; } }}`); } catch (e) { print(e instanceof TypeError); }
print(`${{ toString() { return {}; }, valueOf() { return "v"; } }}`);

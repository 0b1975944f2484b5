import { print } from "host";
let o = Object.create({ p: 1 });
o.q = undefined;
print("p" in o, "q" in o, "r" in o, 0 in [1], "0" in [1], 1 in [1], "length" in []);
print(`k${1}` in { k1: 0 }, "toString" in {}, "push" in []);
try { "a" in "abc"; } catch (e) { print(e instanceof TypeError); }
try { 1 in 5; } catch (e) { print(e instanceof TypeError); }

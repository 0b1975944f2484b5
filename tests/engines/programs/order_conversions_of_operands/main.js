import { print } from "host";
let make = (t, v) => ({ valueOf() { print("value", t); return v; }, toString() { print("text", t); return "s" + v; } });
print(make("a", 1) + make("b", 2));
print(make("a", 3) * make("b", 2), make("a", 3) < make("b", 2));
print(`${make("c", 1)}`, String(make("d", 2)), make("e", 5) + "", -make("f", 6));
print({ toString() { return 7; } } + 1, { valueOf() { return {}; }, toString() { return "t"; } } + 1);
try { ({ toString() { return {}; }, valueOf() { return {}; } }) + 1; } catch (e) { print(e instanceof TypeError); }

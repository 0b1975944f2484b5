import { print } from "host";
print(1 < 2, "a" < "b", "10" < "9", "10" < 9, 2 >= 2, "b" <= "a", null >= 0, true > false, "" < "a", "Z" < "a");
print("\ud83d" < "\uffff", "ab" < "abc", [2] > 1, -1 < 0);
let order = [], make = (t, v) => ({ valueOf() { order.push(t); return v; } });
print(make("l", 1) > make("r", 0), make("l", 1) <= make("r", 0), order.join());

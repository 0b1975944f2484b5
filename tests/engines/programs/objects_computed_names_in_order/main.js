import { print } from "host";
let log = t => { print(t); return t; };
let o = { [log("k1")]: log("v1"), a: log("v2"), [log("k3")]() { return 3; }, get [log("k4")]() { return 4; }, set [log("k4")](v) { print("set", v); } };
o.k4 = 0;
print(o.k1, o.a, o.k3(), o.k4);
let key = { toString() { print("converted"); return "k"; } };
let p = { [key]: log("value"), [key]: log("again") };
print(p.k);

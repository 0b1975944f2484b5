import { print } from "host";
let log = v => { print(v); return v; };
let o = { a: 1, b: 2 };
print(log("a") in (print("object"), o), delete (print("base"), o)[log("b")], "b" in o);
let key = { toString() { print("converted"); return "a"; } };
print(key in o, delete o[key], o.a);

import { print } from "host";
let log = v => { print(v); return v; };
let tag = (t, ...v) => { print("tag", v.join()); return v.length; };
print((log("callee"), tag)`${log(1)}${log(2)}`);
let o = { get t() { print("get"); return tag; } };
o.t`${log("a")}`;
try { undefined`${log("before the test")}`; } catch (e) { print(e instanceof TypeError); }

import { print } from "host";
let log = t => { print(t); return {}; };
let o = { get a() { print("get a"); return undefined; }, get b() { print("get b"); return 2; } };
({ a: log("t1").x = log("d1"), b: log("t2").x = log("d2") } = (print("right"), o));
[log("t3").x, log("t4").x = log("d4")] = (print("right"), [1]);

import { print } from "host";
let log = v => { print("v", v); return v; };
print(log(0) && log(1), log(1) && log(2), log(0) || log("x"), log(3) || log(4));
print(log("") ? log(1) : log(2), !log(null), !!"0");
let x = 0;
x || (x = 5);
x && (x += 1);
print(x, x > 3 ? x < 10 ? "mid" : "high" : "low");
print((0, null) || (1 && "z"), null && undefined, undefined || false);

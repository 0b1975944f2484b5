import { print } from "host";
let log = v => { print(v); return v; };
print(log(1) + log(2) * log(3) - log(4));
print(log(1) < log(2), log(3) === log(3), (log(4), log(5)));
let o = { f(a, b) { return a + b; } };
let get = () => { print("o"); return o; };
print(get()[log("f")](log(1), log(2)));
get()[log("x")] = log(9);
print(o.x);

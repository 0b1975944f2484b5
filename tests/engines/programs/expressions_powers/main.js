import { print } from "host";
print(2 ** 10, 3 ** 0, 0 ** 0, (-2) ** 3, (-1) ** 5, (-1) ** 4, 1 ** 9, 0 ** 3, 2 ** 3 ** 2, (2 ** 3) ** 2, "2" ** "3", true ** 2);
let x = 3;
x **= 2;
print(x, x ** 2 * 2, 2 * x ** 2, -(2 ** 2));
let o = { k: 2 }, log = v => { print("log", v); return v; };
o[log("k")] **= log(5);
print(o.k, log(2) ** log(4), 2 ** -0, 2 ** 53 - 1);
print({ valueOf() { return 3; } } ** 2, [2] ** [3], 94906265 ** 2);

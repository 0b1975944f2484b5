import { print } from "host";
let o = { 1: "one", null: "n", undefined: "u", true: "t", "1,2": "list", "[object Object]": "o" };
print(o[1], o["1"], o[null], o[undefined], o[true], o[[1, 2]], o[{}], o[{ toString: () => 1 }], o[[[1]]]);
let a = [];
a[true] = 1; a[[0]] = "zero"; a[{ toString: () => "1" }] = "one"; a[-0] += "!";
print(a.length, a.join(), a.true);
print("abc"[[1]], "abc"["length"], "1" in a, [2] in a);

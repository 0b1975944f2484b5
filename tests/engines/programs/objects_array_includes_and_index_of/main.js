import { print } from "host";
let o = {}, a = [o, "1", 1, null, undefined, true];
print(a.includes(o), a.includes({}), a.includes("1"), a.includes(null), a.includes(undefined), a.includes(false), a.includes());
print(a.indexOf(1), a.indexOf("1"), a.indexOf(undefined), a.indexOf(1, -3), a.indexOf(1, 3), a.includes(1, -4), a.includes(1, -3), a.includes(o, 9), a.includes(o, -99));

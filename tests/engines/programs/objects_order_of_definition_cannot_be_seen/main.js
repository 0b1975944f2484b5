import { print } from "host";
let o = {};
o.b = 1; o.a = 2; o[1] = 3;
delete o.b;
o.b = 4;
let seen = [];
["a", "b", "1", "c"].forEach(k => { if (o.hasOwnProperty(k)) seen.push(k + o[k]); });
print(seen.join());

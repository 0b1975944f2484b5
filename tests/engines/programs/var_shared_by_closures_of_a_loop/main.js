import { print } from "host";
var fs = [];
for (var i = 0; i < 3; i++) fs.push(() => i);
fs.forEach(f => print(f()));
for (var x of [7, 8]) fs.push(() => x);
print(fs[3](), fs[4](), x);

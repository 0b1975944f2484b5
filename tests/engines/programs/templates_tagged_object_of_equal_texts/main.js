import { print } from "host";
let tag = t => t;
let a = tag`x\n${1}y`, b = tag`x\n${2}y`, c = tag`x
${1}y`;
print(a === b, a === c, a[0] === c[0], a.raw[0] === c.raw[0]);
function f() { return tag`x\n${3}y`; }
print(f() === a);

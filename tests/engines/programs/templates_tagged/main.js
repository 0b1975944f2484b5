import { print } from "host";
function tag(t, ...v) { return [t.length, t.join("|"), t.raw.join("|"), v.join()].join(" / "); }
print(tag`plain`);
print(tag`a${1}b${2}c`);
print(tag`${1}${2}`);
print(tag`x\n${"v"}\u0041\\`);
print(tag``);

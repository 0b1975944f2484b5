import { print } from "host";
print(v, i, w);
{ var v = 2; }
for (var i = 0; i < 2; i++) { var w = i * 3; }
try { throw 1; } catch (e) { var inCatch = e; }
print(v, i, w, inCatch);
var v;
print(v);

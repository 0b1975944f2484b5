import { print } from "host";
debugger;
for (let i = 0; i < 2; i++) { debugger; if (i) debugger; else print(i); }
function f() { debugger; return 1; }
function* g() { debugger; yield 2; debugger }
print(f(), ...g());

import { print } from "host";
let early = () => value;
try { early(); } catch (e) { print(e instanceof ReferenceError); }
let value = 3;
print(early());
print(hoisted(), typeof hoisted);
function hoisted() { return value * 2; }

import { print } from "host";
let throwing = v => { try { throw v; } catch (e) { return e === v; } };
let o = {};
print(throwing(1), throwing("t"), throwing(undefined), throwing(null), throwing(o), throwing(print1));
function print1() {}
throw "end";

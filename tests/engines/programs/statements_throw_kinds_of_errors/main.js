import { print } from "host";
let kinds = [Error, TypeError, ReferenceError, RangeError];
let thrown = [() => { throw new Error("e"); }, () => null.x, () => later, () => { [].length = -1; }];
thrown.forEach(f => { try { f(); } catch (e) { print(e instanceof kinds[1], e instanceof kinds[2], e instanceof kinds[3]); } });
let e = new RangeError("message"), t = TypeError("plain");
print(e.message, e.name, t.message, t.name, t instanceof TypeError, `${e}`, String(new Error("x")), new Error().message);
let later;
throw RangeError("last");

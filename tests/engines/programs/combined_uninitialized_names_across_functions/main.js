import { print } from "host";
let log = [];
const tried = f => { try { return f(); } catch (e) { return e instanceof ReferenceError ? "R" : e instanceof TypeError ? "T" : "?"; } };
const reads = [() => a, () => b, () => new C(), () => d(), () => typeof a, () => { a = 5; }, () => { b = 5; }];
const all = () => { let out = []; for (const f of reads) { const r = tried(f); out.push(typeof r === "object" ? "o" : r === undefined ? "u" : r); } return out.join(); };
print(all());
let a = 1;
print(all());
const b = 2;
print(all());
class C {}
print(all());
function d() { return tried(() => b + 1); }
print(a, b);

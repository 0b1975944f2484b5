import { print } from "host";
let cs = [];
for (let i = 0; i < 2; i++) cs.push(class K { v() { return i; } k() { return K; } });
print(new cs[0]().v(), new cs[1]().v(), new cs[0]().k() === cs[0], cs[0] === cs[1]);
let ds = [];
for (const x of "ab") { class L { get() { return [x, L === ds[ds.length - 1]].join(); } } ds.push(L); print(new L().get()); }
print(new ds[0]().get());

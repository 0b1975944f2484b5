import { print } from "host";
let o = { k: 4, *g(a) { yield this.k; yield arguments.length; a = 9; yield (() => this.k + a + arguments[0])(); } };
for (let v of o.g(1, 2)) print(v);
function* plain() { yield this === undefined; }
print(plain().next().value, [...plain.call(undefined)].join());
function* f() { yield () => arguments[0]; }
print(f("kept").next().value());

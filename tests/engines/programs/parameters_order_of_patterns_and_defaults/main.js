import { print } from "host";
let log = t => { print(t); return t; };
function f({ [log("k1")]: a = log("d1") }, b = log("d2"), { [log("k2")]: c = log("d3") } = { k2: log("v") }) { print(a, b, c); }
f({});
f({ k1: 1 }, 2, {});

import { print } from "host";
let [f = () => 1, g = function () { return f() + 1; }, { h = class { v() { return 3; } } } = {}] = [];
print(f(), g(), new h().v());
let fs = [];
for (let [i, get = () => i] of [[1], [2], [3, () => "own"]]) fs.push(get);
fs.forEach(f => print(f()));

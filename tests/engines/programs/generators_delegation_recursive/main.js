import { print } from "host";
function* tree(n, name) { if (n === 0) { yield name; return 1; } let l = yield* tree(n - 1, name + "l"), r = yield* tree(n - 1, name + "r"); return l + r; }
let leaves = [], o = tree(3, ""), r;
while (!(r = o.next()).done) leaves.push(r.value);
print(leaves.join(), r.value);
function* count(n) { if (n) { yield n; yield* count(n - 1); yield -n; } }
print([...count(4)].join());

import { print } from "host";
let a = [...[1, 2], 3, ...[], ..."xy"];
print(a.length, a.join());
print([...[1, , 3]].join(), 1 in [...[, 1]], 0 in [, 1], [, ,].length, [1, , 2].length);
let b = [...a, ...a];
b.push(9);
print(a.length, b.length);

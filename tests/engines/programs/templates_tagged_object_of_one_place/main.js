import { print } from "host";
let tag = t => t, seen = [];
for (let i = 0; i < 3; i++) seen.push(tag`x${i}`);
print(seen[0] === seen[1], seen[1] === seen[2]);
let f = () => tag`in f`;
print(f() === f(), tag`a` === tag`b`);

import { print } from "host";
let parts = [];
for (let c of "x\ud83d\ude00\ude00\ud83d") parts.push(c.length);
print(parts.join(), [..."\ud83d\ude00"].length);
let [, b] = "\ud83d\ude00z";
print(b);

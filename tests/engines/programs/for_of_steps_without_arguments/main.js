import { print } from "host";
let it = { [Symbol.iterator]() { print("iter", arguments.length); return this; }, next() { print("next", arguments.length); return { value: 1, done: false }; }, return() { print("return", arguments.length); return {}; } };
for (let x of it) break;
let [a] = it;

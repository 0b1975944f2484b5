import { print } from "host";
let it = { [Symbol.iterator]() { return this; }, next() { it.next = () => ({ value: "second", done: false }); return { value: "first", done: false }; } };
let [a, b] = it;
print(a, b);

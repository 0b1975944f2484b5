import { print } from "host";
let it = { [Symbol.iterator]() { return this; }, next() { print("old"); it.next = () => ({ value: 2, done: true }); return { value: 1, done: false }; } };
print(...it);

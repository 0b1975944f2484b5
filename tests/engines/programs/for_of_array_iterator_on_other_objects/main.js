import { print } from "host";
let list = { length: 3, 0: "a", 1: "b", 2: "c", [Symbol.iterator]: [][Symbol.iterator] };
for (let x of list) print(x);
print([...list].join("-"));
let o = Object.create([7, 8]);
print(...o);
print([][Symbol.iterator].call("hi").next().value);

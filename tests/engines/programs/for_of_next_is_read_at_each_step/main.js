import { print } from "host";
let n = 0;
let it = { [Symbol.iterator]() { return this; }, next() { return { value: "old", done: false }; } };
for (let v of it) {
  print(v);
  it.next = () => ({ value: "new", done: n++ > 0 });
}

import { print } from "host";
function it(n, tag) {
  let i = 0;
  return { [Symbol.iterator]() { return this; }, next() { print("next" + tag); return { value: i, done: i++ >= n }; }, return() { print("close" + tag); return {}; } };
}
let [p] = it(3, "a");
let [q, r] = it(1, "b");
let [s, t] = it(2, "c");
let [...u] = it(2, "d");
let [] = it(1, "e");
print(p, q, r, s, t, u.join());

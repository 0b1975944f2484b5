import { print } from "host";
function* g() {
  print([yield 1, , yield 2, ...(yield 3)].join());
  let o = { a: yield 4, [yield 5]: yield 6, get [yield 7]() { return "got"; }, [yield 8]() { return "method"; }, yield: 1 };
  print(o.a, o.k, o.g, o.m(), o.yield);
  print(`${yield 9}-${yield 10}`);
}
let it = g();
for (let v of [0, "x", "y", [1, 2], "a", "k", "v", "g", "m", "t", "u"]) it.next(v);

import { print } from "host";
let it = tag => ({ [Symbol.iterator]() { return this; }, next() { return { value: tag, done: false }; }, return() { print("close", tag); return {}; } });
function f() {
  for (let x of it("a")) try { return "r"; } finally { print("fin", x); }
}
print(f());
function g() {
  for (let x of it("b")) try { throw 1; } catch (e) { continue; } finally { print("f"); break; }
  return "g";
}
print(g());

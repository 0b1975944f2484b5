import { print } from "host";
class Stack {
  constructor() { this.items = []; }
  push(...xs) { xs.forEach(x => this.items.push(x)); return this; }
  pop() { if (!this.items.length) throw new RangeError("empty"); return this.items.pop(); }
  get size() { return this.items.length; }
  *[Symbol.iterator]() { for (let i = this.items.length; i > 0; i--) yield this.items[i - 1]; }
  static of(...xs) { return new this().push(...xs); }
}
class Counted extends Stack {
  constructor() { super(); this.pops = 0; }
  pop() { this.pops++; return super.pop(); }
}
let s = Counted.of(1, 2, 3);
print(s.size, s.pop(), s.pops, [...s].join());
try { for (;;) s.pop(); } catch (e) { print(e.message, s.pops, e instanceof RangeError); }

import { print } from "host";
class Range {
  constructor(a, b) { this.a = a; this.b = b; }
  [Symbol.iterator]() { let i = this.a, b = this.b; return { next: () => i < b ? { value: i++, done: false } : { value: "end", done: true } }; }
}
let r = new Range(2, 5);
print([...r].join(), ...r);
for (let x of r) for (let y of r) if (x + y === 7) print(x, y);
let [a, b] = r;
print(a, b);

import { print } from "host";
class Temperature {
  constructor(c) { this.c = c; }
  get f() { return this.c * 9 / 5 + 32; }
  set f(v) { this.c = (v - 32) * 5 / 9; }
  toString() { return `${this.c}C`; }
  valueOf() { return this.c; }
}
let t = new Temperature(100);
print(t.f, `${t}`, t + 1, t > 50);
t.f = 32;
print(t.c, "" + t, String(t));
t.f += 18;
print(t.c);

import { print } from "host";
class A { constructor(x) { if (x === 0) throw "zero"; this.x = x; } }
class B extends A {
  constructor(k) {
    for (let i = k; ; i++) try { super(i); break; } catch (e) { print("caught", e); } finally { print("finally", i); }
    this.y = this.x * 2;
  }
}
print(new B(0).y, new B(3).y);

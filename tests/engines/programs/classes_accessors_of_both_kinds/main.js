import { print } from "host";
class A {
  get a() { return "g"; }
  set b(v) { print("set", v); }
  get c() { return this.hidden; }
  set c(v) { this.hidden = v + 1; }
}
let o = new A();
try { o.a = 1; } catch (e) { print(e instanceof TypeError); }
o.b = 2;
print(o.a, o.b);
o.c = 5;
print(o.c);
class B extends A { get c() { return "B"; } }
let p = new B();
try { p.c = 1; } catch (e) { print(e instanceof TypeError); }
print(p.c, p.a);

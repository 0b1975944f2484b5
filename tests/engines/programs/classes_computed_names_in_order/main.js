import { print } from "host";
let log = t => { print(t); return t; };
class A {
  [log("a")]() { return 1; }
  static [log("b")]() { return 2; }
  get [log("c")]() { return 3; }
  set [log("c")](v) { print("set", v); }
  *[log("d")]() { yield 4; }
  [Symbol.iterator]() { return [5][Symbol.iterator](); }
}
let o = new A();
o.c = 0;
print(o.a(), A.b(), o.c, o.d().next().value, ...o);
let key = { toString() { print("converted"); return "k"; } };
class B { [key]() { return "k"; } [log("after")]() {} }
print(new B().k());

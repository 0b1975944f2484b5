import { print } from "host";
let n = 0, key = () => "k" + n++;
class A {
  [key()](a = key(), b = () => a + n) { return b(); }
  get [key()]() { return key; }
  static [(function () { return key(); })()](a, ...b) { return a + b.length; }
}
print(new A().k0(), new A().k0("own"), new A().k1(), A.k2(1, 2, 3), n);

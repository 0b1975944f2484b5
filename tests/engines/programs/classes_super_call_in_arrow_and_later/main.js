import { print } from "host";
let kept;
class A { constructor(x) { this.x = x; } }
class B extends A {
  constructor(x) {
    let init = () => super(x);
    let get = () => this;
    try { get(); } catch (e) { print(e instanceof ReferenceError); }
    init();
    print(get().x);
    kept = init;
  }
}
let b = new B(4);
try { kept(); } catch (e) { print(e instanceof ReferenceError); }
print(b.x);

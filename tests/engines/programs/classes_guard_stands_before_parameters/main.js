import { print } from "host";
class A { constructor(x = print("default")) { this.x = x; } }
try { A(); } catch (e) { print(e instanceof TypeError); }
print(new A().x);

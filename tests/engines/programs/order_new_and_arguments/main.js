import { print } from "host";
let log = v => { print(v); return v; };
class A { constructor(...a) { print("new", ...a); } }
let make = () => { print("class"); return A; };
new (make())(log(1), ...[log(2)], log(3));
try { new (log(5))(log("never called")); } catch (e) { print(e instanceof TypeError); }

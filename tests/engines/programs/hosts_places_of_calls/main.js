import { print, read as r } from "host";
print(print(r()), r(print(1)) + r(), [r(), ...[print()]].length); print(2);
let f = (x = print("default")) => print(
  "in f", x), g = () => { return print("in g") || r(); };
f(); f(5); g();
  if (print("test") === undefined) r(print("a"), print("b")); else print("no");
`${print("in template")}${r()}`; (print("group")); print(...[1], ...r());
do print("do"); while (r("loop"));
class A { constructor() { print("constructor"); } m() { return print("method"); } get p() { return r("getter"); } }
new A().m(); new A().p;
throw print("last");

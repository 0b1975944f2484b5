import { print } from "host";
function* g() { yield 1; }
g.prototype.tag = "tagged";
let o = g();
print(o.tag, o instanceof g, o.next().value);
g.prototype = { other: 1, next() { return "own next"; } };
let p = g();
print(p.other, p.next(), p instanceof g, o instanceof g);
g.prototype = 5;
print(g().next().value, g().tag);

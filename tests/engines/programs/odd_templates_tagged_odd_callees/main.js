import { print } from "host";
function tag(t, ...v) { return t.join("|") + "/" + t.raw.join("|") + "/" + v.join(",") + "/" + (this === undefined); }
let o = { n: 3, tag(t, v) { return this.n + t[1] + v; }, get late() { print("got"); return tag; }, deep: { tag } };
print(tag`a${1}b${2}c`, o.tag`x${4}y`, o["tag"]`x${5}z`, o.late`q`, o.deep.tag`${1}${2}`);
print((() => tag)()`a\tb`, (0, o.tag === undefined ? 1 : tag)`c`, new (function () { this.t = tag; })().t`w`);
function chain(t) { return t[0] === "end" ? t[0] : chain; }
print(chain`a``b``end`);
function same() { return ((t) => t)`x${0}y`; }
print(same() === same(), ((t) => t)`x${0}z` === same());
class A { tag(t, v) { return "A" + t[0] + v; } static s(t) { return "s" + t.raw[0]; } }
class B extends A { m() { return super.tag`sup${1}`; } static n() { return super.s`\n`; } }
print(new B().m(), B.n());
function* g() { return tag`${yield 1}-${yield 2}`; }
let i = g(); i.next(); i.next("p"); print(i.next("q").value);
let order = ""; ((order += "c"), (t, ...v) => 0)`${order += "1"}${order += "2"}`; print(order);
try { (5)`x`; } catch (e) { print(e instanceof TypeError); }
try { o.none`${print("evaluated")}`; } catch (e) { print(e instanceof TypeError); }
print(`a${`b${`c${1}`}`}`, `${{ toString() { return "o"; } }}`, `\u{1F600}`.length, `line
end`, tag`\r\n\\\``);

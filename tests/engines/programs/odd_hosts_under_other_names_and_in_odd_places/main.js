import { print as say, read as print, count as read2, print as say2 } from "host";
import { tell, print as real } from "./tell.js";
say(print(), read2(1, "x"), print(print(), 2)); say2(...[1, ...[2]], ..."ab"); tell("told"); real("a function named print");
{ let say = (v) => tell(v + " shadowed"); say(1); } (function say(n) { if (n) { tell(n); say(n - 1); } })(2);
let f = (a = say("default"), b = print()) => [a, b].join(); say(f(), f(1));
say(`${say("inside")}`, [say("list")].length, { k: say("object") }.k, say("a") || say("b"), (say("c"), 1));
if (say("if")) ; else for (let i = say("init"); !say("test"); ) break;
try { throw say("throw"); } catch (e) { say(e); } switch (say("switch")) { case say("case"): say("body"); }
class C { [say("key") || "k"]() { return say("method"); } } say(new C().k()); say();
function* g() { say(yield say("yielded"), yield* say("star") || [3]); } let i = g(); say(i.next().value); i.next(4); i.next(5);
try { say({}); } catch (e) { say(e instanceof TypeError); } try { say(1, () => 1); } catch (e) { say(e instanceof TypeError); }

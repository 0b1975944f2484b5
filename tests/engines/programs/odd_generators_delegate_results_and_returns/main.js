import { print } from "host";
function it(log, own) {
  let i = 0, o = { [Symbol.iterator]() { return this; }, next(v) { print(log, "next", v); return { get done() { print(log, "done"); return i++ > 1; }, get value() { print(log, "value"); return i; } }; } };
  if (own & 1) o.return = function (v) { print(log, "return", v); return { value: "r" + v, done: own & 2 ? false : true }; };
  if (own & 4) o.throw = function (v) { print(log, "throw", v); return { value: "t" + v, done: own & 8 ? false : true }; };
  return o;
}
function* g(o) { try { let r = yield* o; print("got", r); return "fin"; } catch (e) { print("caught", e instanceof TypeError, typeof e === "string" ? e : ""); return "c"; } finally { print("finally"); } }
function show(r) { print(r.value, r.done); }
let a = g(it("a", 0)); show(a.next("x")); show(a.next("y")); show(a.next("z")); show(a.next());
a = g(it("b", 1)); show(a.next()); show(a.return(5));
a = g(it("c", 3)); show(a.next()); show(a.return(5)); show(a.next(1)); show(a.return(6));
a = g(it("d", 4)); show(a.next()); show(a.throw(5));
a = g(it("e", 12)); show(a.next()); show(a.throw(5)); show(a.next());
a = g(it("f", 0)); show(a.next()); show(a.return(7));
a = g(it("h", 1)); show(a.next()); show(a.throw(7));
a = g(it("i", 0)); show(a.next()); show(a.throw(8));
a = g("ab"); show(a.next()); show(a.next()); show(a.next());

import { print } from "host";
function* g() {
  try { try { yield 1; } catch (e) { print("inner", e); let k = yield e + 1; throw k; } finally { print("f1"); yield "f"; print("f1 after"); } }
  catch ([a, b = yield "default"]) { print("outer", a, b); yield () => a; }
  finally { for (const v of ["x", "y"]) { yield v; } }
  let e = "last"; try { throw 1; } catch (e) { yield e; e = yield 0; print(e); } print(e);
  return e;
}
let o = g(), r; const show = (r) => print(typeof r.value === "function" ? r.value() : r.value, r.done);
show(o.next()); show(o.throw(5)); show(o.next([7])); show(o.next()); show(o.next("b")); show(o.next()); show(o.next()); show(o.next()); show(o.next()); show(o.next("e")); show(o.next());
o = g(); show(o.next()); show(o.return("r")); show(o.next()); show(o.next()); show(o.next()); show(o.next());
o = g(); show(o.next()); show(o.return("r")); try { show(o.throw("t")); show(o.next()); show(o.next()); show(o.next()); } catch (e) { print("thrown", e); }
function* loop() { for (let n = 0; ; n++) try { yield n; } catch (e) { print(n, e); if (e === "stop") return n; continue; } finally { print("turn", n); } }
o = loop(); show(o.next()); show(o.throw("on")); show(o.next()); show(o.throw("stop")); show(o.next());
function* nothing() { try { } catch (e) { yield 1; } finally { yield 2; } } print([...nothing()].join());

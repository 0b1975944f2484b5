import { print } from "host";
function f() {
  for (let i = 0; i < 2; i++) {
    try { try { if (i) return "r" + i; continue; } finally { print("inner", i); } } finally { print("outer", i); }
  }
}
print(f());
try { try { throw "a"; } finally { try { throw "b"; } catch (e) { print("in", e); } } } catch (e) { print("out", e); }
try { try { throw "x"; } catch (e) { throw e + "y"; } finally { print("fin"); } } catch (e) { print(e); }

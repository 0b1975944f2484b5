import { print } from "host";
let e = "outer", fs = [];
for (const v of [1, 2]) try { throw { e: v, list: [v, [v + 1]] }; } catch ({ e, list: [a, [b = 9, c = 8]] }) { let d = a + b + c; fs.push(() => e + d, () => { e = "changed"; }); { let e = "block"; fs.push(() => e); } } 
print(fs[0](), fs[3](), fs[2](), e); fs[1](); print(fs[0](), fs[3]());
try { throw undefined; } catch (x) { print(x === undefined); }
try { throw 1; } catch (x) { for (var y of [x, 2]) ; var z = x; } print(y, z);
function f() { try { return g(); } catch (x) { return "c" + x; } finally { e = "finally"; } }
function g() { throw e; }
print(f(), f(), e);
try { try { throw 1; } finally { print("f1"); } } catch (a) { try { throw a + 1; } catch (a) { print(a); } print(a); } finally { print("f2"); }
function h() { for (;;) { try { try { return 1; } finally { throw 2; } } catch (x) { return "x" + x; } finally { break; } } return "after"; }
print(h());
try { null.x; } catch ({ message }) { print(typeof message); }
try { throw null; } catch (n) { print(n); try { let { a } = n; } catch (m) { print(m instanceof TypeError); } }

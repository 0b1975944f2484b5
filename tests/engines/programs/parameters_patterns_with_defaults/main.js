import { print } from "host";
function f({ a, b: { c = 3 } = {} } = { a: "none" }, [d, , e = d, ...g] = [1, 2]) { print(a, c, d, e, g.join()); }
f();
f({ a: 1, b: { c: 2 } });
f({}, [5, 6, undefined, 7, 8]);
f({ b: { c: null } }, "wxyz!");
try { f({ b: null }); } catch (e) { print(e instanceof TypeError); }
try { f(null); } catch (e) { print(e instanceof TypeError); }
try { f({}, 5); } catch (e) { print(e instanceof TypeError); }

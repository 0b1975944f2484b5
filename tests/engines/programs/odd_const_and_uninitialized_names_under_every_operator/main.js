import { print } from "host";
const t = (f) => { try { print(typeof f()); } catch (e) { print(e instanceof ReferenceError ? "R" : e instanceof TypeError ? "T" : "?"); } };
t(() => x); t(() => x = 1); t(() => x += 1); t(() => x++); t(() => typeof x); t(() => { [x] = [1]; }); t(() => { ({ x } = { x: 1 }); }); t(() => { for (x of [1]) ; }); t(() => x()); t(() => x`a`); t(() => new x()); t(() => x.y); t(() => `${x}`); t(() => [...x]); t(() => delete x.y); t(() => void x); t(() => (x, 1)); t(() => x ** 2); t(() => { x **= print("right"); }); t(() => { x = print("right"); });
t(() => k); t(() => k = print("side")); t(() => k++);
let x = 1; const k = 2;
t(() => x); t(() => x = 1); t(() => k); t(() => k = print("side")); t(() => k += 1); t(() => k++); t(() => --k); t(() => { [k] = [1]; }); t(() => { ({ a: k } = { a: 1 }); }); t(() => { for (k of [1]) ; }); t(() => { for (const c = 0; c < 1; c++) print(c); }); t(() => { for (const c of [1]) c = 2; });
t(() => { (function f() { f = 1; })(); }); t(() => { class C { static m() { C = 1; } } C.m(); }); t(() => { try { throw 1; } catch (e) { e = 2; return e; } });
t(() => { let y = y; }); t(() => { let [a = b, b] = []; }); t(() => { (function (a = b, b) { })(); }); t(() => { (function (a = a) { })(); }); t(() => { (function (a, b = a, c = () => c) { return c; })(1)(); }); t(() => { switch (1) { case 0: let z; case 1: z; } }); t(() => { for (let q of [q]) ; }); t(() => { for (let q = q; ;) ; }); t(() => { { f(); let w = 1; function f() { return w; } } });

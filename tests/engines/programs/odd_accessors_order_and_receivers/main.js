import { print } from "host";
let log = (v, r) => { print(v); return r; };
let o = { get a() { return log("get a", 1); }, set a(v) { log("set a " + v); }, get b() { return o2; } }, o2 = { set c(v) { print("c", v, this === o2); }, get c() { return 5; } };
o.a += log("right", 2); o.a++; print(o.a++ + ++o.a); o.b.c = 1; o.b.c -= 2; --o.b.c; o[log("key", "a")] **= 2;
let d = Object.create(o); d.a = 7; print(d.hasOwnProperty("a"), d.a);
let p = { get [log("k1", "x")]() { return "x1"; }, set [log("k2", "x")](v) { print("x set", v); }, [log("k3", "y")]: log("v3", 3), get z() { return this.y; }, z2: 1 };
p.x = 1; print(p.x, p.y, p.z);
let q = { a: 1, get a() { return 2; }, b: 1, set b(v) { }, get c() { return 1; }, c: 3 }; print(q.a, q.b, q.c);
try { q.a = 1; } catch (e) { print(e instanceof TypeError); }
try { "abc".length = 1; } catch (e) { print(e instanceof TypeError); }
try { "abc"[0] = "x"; } catch (e) { print(e instanceof TypeError); }
try { delete [].length; } catch (e) { print(e instanceof TypeError); }
print(delete o.none, delete o.a, o.a, "length" in [], 0 in [1], delete [1][0]);

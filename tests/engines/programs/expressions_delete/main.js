import { print } from "host";
let o = { a: 1, b: 2, get c() { return 3; } };
print(delete o.a, delete o["b"], delete o.zz, "a" in o, "b" in o, "c" in o, delete o.c, o.c);
print(delete 5, delete (print("effect"), 1));
let a = [1, 2, 3];
print(delete a[1], a.length, 1 in a, a.join());
try { delete a.length; } catch (e) { print(e instanceof TypeError); }
try { delete null.x; } catch (e) { print(e instanceof TypeError); }
try { delete "text"[0]; } catch (e) { print(e instanceof TypeError); }
try { delete "text".length; } catch (e) { print(e instanceof TypeError); }

import { print } from "host";
try { throw { a: 1, b: [2, 3] }; } catch ({ a, b: [c, ...d], e = a + c }) { print(a, c, d.join(), e); }
try { throw "xy"; } catch ([p, q, r = p + q]) { print(p, q, r); }
try { try { throw null; } catch ({ a }) { print("no"); } } catch (e) { print(e instanceof TypeError); }
try { try { throw {}; } catch ({ a = (() => { throw "d"; })() }) { print("no"); } finally { print("f"); } } catch (e) { print(e); }

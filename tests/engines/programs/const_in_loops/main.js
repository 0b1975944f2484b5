import { print } from "host";
for (const q of [1, 2]) try { q = 5; } catch (e) { print(e instanceof TypeError, q); }
try { for (const i = 0; i < 2; i++) print("turn", i); } catch (e) { print(e instanceof TypeError); }
for (const o = { n: 0 }; o.n < 2; o.n++) print(o.n);

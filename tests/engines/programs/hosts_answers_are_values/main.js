import { print, read, count } from "host";
print(read(), read(), read(), read(), read(), read());
try { count(); } catch (e) { print("thrown", e); }
print(count("twice", count()), print("inner"));
let xs = [];
for (let x; (x = read()) !== null;) xs.push(x);
print(xs.join());

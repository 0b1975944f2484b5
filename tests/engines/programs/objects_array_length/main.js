import { print } from "host";
let a = [1, 2, 3];
a.length = "2";
print(a.join(), a.length);
a[5] = 6;
print(a.length, a.join());
try { a.length = -1; } catch (e) { print(e instanceof RangeError); }
try { a.length = 4294967296; } catch (e) { print(e instanceof RangeError); }
a[4294967294] = 1;
print(a.length, a[4294967295] = 2, a.length);
a.length = 0;
print(a.length, a[0], a[4294967295]);

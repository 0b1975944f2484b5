import { print } from "host";
var a;
let b;
function c() {}
class D {}
[a, b, c, D] = [1, 2, 3, 4];
print(a, b, c, D);
const k = 0;
try { [a, k, b] = [5, 6, 7]; } catch (e) { print(e instanceof TypeError); }
print(a, b, k);

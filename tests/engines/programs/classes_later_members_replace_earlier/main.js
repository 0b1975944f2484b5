import { print } from "host";
class A { m() { return 1; } m() { return 2; } get k() { return 3; } k() { return 4; } ["x"]() { return 5; } get x() { return 6; } static s() { return 7; } static s() { return 8; } }
let a = new A();
print(a.m(), a.k(), a.x, A.s());

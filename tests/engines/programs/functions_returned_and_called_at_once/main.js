import { print } from "host";
print((function () { return function (x) { return x + 1; }; })()(1), (() => x => x * 2)()(4), (function f(n) { return n ? f : "end"; })(1)(0));
let make = n => { let calls = 0; return function self() { calls++; return calls < n ? self : calls; }; };
print(make(3)()()(), typeof make(2)());
(function () { print("statement"); })();
(() => print("arrow"))();
!function () { print("not"); }();
new function () { print("new", new.target !== undefined); };

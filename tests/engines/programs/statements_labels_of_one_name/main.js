import { print } from "host";
l: for (let i = 0; i < 2; i++) { print(i); continue l; }
l: { break l; }
function f() { l: for (;;) { (() => { l: for (;;) break l; print("inner"); })(); break l; } return "f"; }
l: { print(f()); }

import { print } from "host";
outer: for (let i = 0; i < 3; i++) {
  for (let j = 0; j < 3; j++) {
    if (j === 1) continue outer;
    if (i === 2) break outer;
    print(i, j);
  }
}
a: { b: { print("in b"); break a; } print("no"); }
c: if (true) { d: { break c; } print("no"); }
e: { e2: for (;;) { break e; } }
x: y: for (let i = 0; i < 3; i++) { if (i === 0) continue x; if (i === 1) continue y; print("last", i); break x; }
f: { f1: { break f1; } print("after f1"); }
print("end");

import { print } from "host";
let x = "";
a: { x += 1; b: { x += 2; if (x) break a; } x += 3; }
c: if (x) { x += 4; break c; } else x += 5;
d: try { x += 6; break d; } finally { x += 7; }
e: switch (1) { case 1: x += 8; f: for (;;) { break e; } default: x += 9; }
g: h: for (let i = 0; i < 3; i++) { x += i; if (i < 1) continue g; if (i < 2) continue h; break g; }
i: do { x += "i"; continue i; } while (false);
j: for (const v of "jk") { k: while (true) { x += v; continue j; } }
l: with_: { break l; }
x: y: { break y; }
print(x);

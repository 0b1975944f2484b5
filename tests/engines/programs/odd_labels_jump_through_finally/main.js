import { print } from "host";
function f(n) {
  let out = "";
  L: for (let i = 0; ; i++) {
    M: try {
      try {
        if (i === n) break L;
        if (i === 1) continue L;
        if (i === 2) break M;
        if (i === 3) return out + "r";
        out += i;
      } finally {
        out += "f";
        if (i === 4) { try { break L; } finally { out += "g"; } }
      }
      out += "n";
    } catch (e) { out += "c"; } finally { out += "F"; if (n === 9 && i === 3) continue L; }
    out += ".";
  }
  return out;
}
for (const n of [0, 1, 2, 3, 7, 9]) print(f(n));

import { print } from "host";
function f(k) {
  l: for (let i = 0; i < 2; i++) try {
    if (k === 0) return "r";
    if (k === 1) continue l;
    if (k === 2) break l;
    if (k === 3) throw "t";
  } catch (e) { print("c" + e, i); if (i) return "cr"; }
  finally { print("f" + i); if (k === 4) return "over"; }
  return "end";
}
for (let k = 0; k < 5; k++) print(f(k));

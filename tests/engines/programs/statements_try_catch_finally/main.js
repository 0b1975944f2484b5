import { print } from "host";
function f(k) {
  try { print("try", k); if (k === 1) throw "t"; if (k === 2) return "r"; }
  catch (e) { print("catch", e); return "c"; }
  finally { print("finally"); if (k === 3) return "over"; }
  return "end";
}
for (let k = 0; k < 4; k++) print(f(k));

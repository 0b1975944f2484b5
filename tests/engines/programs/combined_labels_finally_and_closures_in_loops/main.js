import { print } from "host";
let fs = [], log = [];
outer: for (let i = 0; i < 4; i++) {
  for (const j of [1, 2, 3]) {
    try {
      if (i === 1 && j === 2) continue outer;
      if (i === 3) break outer;
      fs.push(() => `${i}${j}`);
      if (j === 3) throw i;
    } catch (e) { log.push("c" + e); fs.push(() => e + i * 100); }
    finally { log.push("f" + i + j); if (i === 2) continue; }
    log.push("after" + i + j);
  }
}
print(log.join(" "));
print(...(function* () { for (const f of fs) yield f(); })());

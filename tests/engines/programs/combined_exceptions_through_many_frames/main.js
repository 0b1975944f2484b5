import { print } from "host";
const log = [];
function* source() { try { yield 1; throw new RangeError("from generator"); } finally { log.push("source"); } }
class Reader { constructor(it) { this.it = it; } read() { for (const x of this.it) try { this.check(x); } finally { log.push("read " + x); } return "done"; } check(x) { if (x > 1) throw x; log.push("check " + x); } }
const attempt = f => { try { return f(); } catch (e) { log.push(e instanceof RangeError ? e.message : e); return "failed"; } finally { log.push("attempt"); } };
print(attempt(() => new Reader(source()).read()));
print(attempt(() => new Reader([1, 2, 3]).read()));
print(attempt(() => new Reader("1").read()));
print(log.join(", "));

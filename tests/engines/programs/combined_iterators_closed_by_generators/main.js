import { print } from "host";
const log = [];
const source = tag => ({ [Symbol.iterator]() { let n = 0; return { next: () => ({ value: tag + n++, done: n > 4 }), return: v => { log.push("return " + tag); return {}; } }; } });
function* zip(...all) { const its = []; for (const s of all) its.push(s[Symbol.iterator]()); try { for (;;) { const row = []; for (const it of its) { const { value, done } = it.next(); if (done) return "short"; row.push(value); } yield row.join("+"); } } finally { for (const it of its) it.return(); } }
for (const row of zip(source("a"), source("b"))) { print(row); if (row === "a1+b1") break; }
print(log.join());
print([...zip(source("c"))].join(), log.length);
function* through(it) { for (const x of it) yield x + "!"; }
for (const x of through(through(source("d")))) { print(x); break; }
print(log[log.length - 1]);

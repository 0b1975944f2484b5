import { print } from "host";
let t = "a\u{1F600}b\ud83dc\ude00";
print([...t].length, t.length, [...t][1], [...t][3] === "\ud83d", [...t][5] === "\ude00");
let [p, q, ...r] = t; print(p, q.length, r.length);
for (const c of "\ud83d\ud83d\ude00\ude00") print(c.length);
print(...("xy"), [..."", ...""].length, ((...a) => a.length)(..."\u{10FFFF}z"));
function* g() { yield* "\u{1F600}!"; }
let all = ""; for (const c of g()) all += c.length; print(all);
print("\u2028\u2029\0\x7f\b\v\f", "\
joined", '\'"', "\u{0}".length, "é".length, "\u{e9}" === "é");
let it = "ab"[Symbol.iterator](); it.next(); print([...it].join(), [...it].length);

import { print } from "host";
const rows = [[1, 2], [3, 4]];
const times = (a, b) => { const out = []; for (const row of a) { const r = []; for (let j = 0; j < b[0].length; j++) { let s = 0; for (let k = 0; k < row.length; k++) s += row[k] * b[k][j]; r.push(s); } out.push(r); } return out; };
let m = rows;
for (let i = 0; i < 3; i++) m = times(m, rows);
print(m.join(";"));
function* permutations(xs) {
  if (xs.length < 2) { yield xs; return; }
  for (let i = 0; i < xs.length; i++) {
    const rest = [];
    xs.forEach((x, j) => { if (i !== j) rest.push(x); });
    for (const p of permutations(rest)) yield [xs[i], ...p];
  }
}
let all = [];
for (const [a, , c = "none"] of permutations([1, 2, 3])) all.push(a + "" + c);
print(all.join());

import { print } from "host";
function* queens(n, row = 0, cols = []) {
  if (row === n) { yield cols.join(""); return; }
  next: for (let c = 0; c < n; c++) {
    for (let r = 0; r < row; r++) { const d = cols[r] - c; if (d === 0 || d === row - r || d === r - row) continue next; }
    yield* queens(n, row + 1, [...cols, c]);
  }
}
print([...queens(6)].join(), [...queens(5)].length);

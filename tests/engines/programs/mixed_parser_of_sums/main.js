import { print } from "host";
function* tokens(text) {
  let digits = "";
  for (const c of text) {
    if ("0123456789".indexOf(c) >= 0) { digits += c; continue; }
    if (digits) { yield { kind: "number", value: +digits }; digits = ""; }
    if (c !== " ") yield { kind: c };
  }
  if (digits) yield { kind: "number", value: +digits };
  yield { kind: "end" };
}
class Parser {
  constructor(text) { this.list = tokens(text); this.step(); }
  step() { ({ value: this.token } = this.list.next()); }
  take(...kinds) { const { kind } = this.token; if (!kinds.includes(kind)) return false; this.step(); return kind; }
  expect(kind) { if (!this.take(kind)) throw new TypeError(`${kind} wanted, ${this.token.kind} found`); }
  sum() { let v = this.product(), op; while ((op = this.take("+", "-"))) { const w = this.product(); v = op === "+" ? v + w : v - w; } return v; }
  product() { let v = this.primary(); while (this.take("*")) v *= this.primary(); return v; }
  primary() { const { kind, value } = this.token; if (kind === "number") { this.step(); return value; } if (this.take("-")) return -this.primary(); this.expect("("); const v = this.sum(); this.expect(")"); return v; }
}
for (const text of ["1 + 2 * 3", "(1+2)*3 - -4", "2*(3+(4-1))*5", "7", "(1"]) {
  try { const p = new Parser(text), v = p.sum(); p.expect("end"); print(text, v); } catch (e) { print(text, e instanceof TypeError, e.message); }
}

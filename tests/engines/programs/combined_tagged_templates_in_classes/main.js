import { print } from "host";
class Html { constructor() { this.parts = []; } tag(texts, ...values) { texts.forEach((t, i) => { this.parts.push(t); if (i < values.length) this.parts.push(`<${values[i]}>`); }); return this; } toString() { return this.parts.join(""); } static of(texts, ...v) { return new this().tag(texts, ...v); } }
print(`${Html.of`a${1}b${"two"}c`}`, Html.of``.tag`x`.tag`y${3}` + "");
const row = (...cells) => Html.of`[${cells.join("|")}]`;
print(String(row(1, `${row("in")}`)));

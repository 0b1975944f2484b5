import { print } from "host";
let o = { k: "o", tag(t) { return this.k + t[0]; }, deep: { tag(t, v) { return v + t[1]; } } };
print(o.tag`x`, o["tag"]`y`, o.deep.tag`a${5}b`);
let f = t => (u, v) => [t[0], u.raw[0], v].join();
print(f`one``t\wo${3}`, (x => () => x)(4)`a`, f`p``q${f`r``s${1}`}`);
print(new (function () { this.m = t => t[0]; })().m`z`);

import { print } from "host";
const log = [];
const o = {
  n: 1,
  get next() { log.push("get"); return this.n++; },
  set next(v) { log.push("set" + v); this.n = v; },
  get [`k${1}`]() { return this.next + this.next; },
};
o.next += 10;
[o.next, o.other = o.k1] = [5];
({ next: o.next, k1: o.sum } = o);
print(o.n, o.other, o.sum, log.join(" "));
const p = Object.create(o);
p.next = 50;
print(p.n, o.n, p.next, p.n, o.n);

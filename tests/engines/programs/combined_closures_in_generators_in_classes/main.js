import { print } from "host";
class Counter {
  constructor(step) { this.step = step; this.seen = []; }
  *run() {
    let n = 0;
    const get = () => n * this.step;
    try {
      for (;;) {
        const before = n, sent = yield get();
        n += sent === undefined ? 1 : sent;
        this.seen.push(() => `${before}>${n}`);
      }
    } finally { this.total = get(); }
  }
}
const c = new Counter(10), it = c.run();
print(it.next().value, it.next().value, it.next(5).value, it.return("over").value, c.total);
c.seen.forEach(f => print(f()));

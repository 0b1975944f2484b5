import { print } from "host";
class Account {
  constructor(owner, balance = 0) { this.owner = owner; this.balance = balance; this.log = []; }
  change(n) {
    try {
      if (n === 0) throw new RangeError("nothing");
      if (this.balance + n < 0) throw new Error(`${this.owner} lacks ${-(this.balance + n)}`);
      this.balance += n;
      return true;
    } catch (e) {
      if (e instanceof RangeError) return false;
      throw e;
    } finally { this.log.push(n); }
  }
}
function move(a, b, n) { if (!a.change(-n)) return "nothing moved"; try { b.change(n); } catch (e) { a.change(n); throw e; } return `${a.owner}->${b.owner} ${n}`; }
const [x, y] = [new Account("x", 10), new Account("y")];
for (const n of [4, 0, 7, 6]) try { print(move(x, y, n)); } catch ({ message }) { print("failed", message); }
print(x.balance, y.balance, x.log.join(), y.log.join());

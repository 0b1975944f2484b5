import { print } from "host";
const cons = (head, tail) => ({ head, get tail() { const value = tail(); return value; } });
const from = n => cons(n, () => from(n + 1));
const take = (n, l) => n === 0 ? [] : [l.head, ...take(n - 1, l.tail)];
const map = (f, l) => cons(f(l.head), () => map(f, l.tail));
const zip = (f, a, b) => cons(f(a.head, b.head), () => zip(f, a.tail, b.tail));
let fibs = cons(0, () => cons(1, () => zip((x, y) => x + y, fibs, fibs.tail)));
print(take(5, map(x => x ** 2, from(3))).join(), take(10, fibs).join());

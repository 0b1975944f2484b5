import { print } from "host";
class Point { constructor(x, y) { [this.x, this.y = 7] = [x, y]; } *[Symbol.iterator]() { yield this.x; yield this.y; } get both() { return { x: this.x, y: this.y }; } }
const [a, b] = new Point(1), { x, y: why = 5, both: { y: inner } } = new Point(2, 3);
print(a, b, x, why, inner);
let f = ([p, q] = new Point("p", "q"), { x: r = p } = {}) => [p, q, r].join();
print(f(), f(new Point(1, 2), new Point(3)), f([4], {}));
const points = { *all(n) { for (let i = 0; i < n; i++) yield new Point(i, i * i); } };
for (const [i, j] of points.all(4)) print(i, j);
let best;
for ({ y: best } of points.all(3)) ;
print(best);

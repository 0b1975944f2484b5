import { print } from "host";
let a = () => 1, b = x => x + 1, c = (x, y) => { return x * y; }, d = () => {}, e = () => ({ k: 1 }), f = x => y => z => x + y + z;
print(a(), b(1), c(2, 3), d(), e().k, f(1)(2)(3));
let g = (x, y = x, ...r) => [x, y, r.length].join(), h = ({ p }, [q] = [p]) => p + q;
print(g(1), g(1, 2, 3, 4), h({ p: 4 }), h({ p: 1 }, "z"));
print((x => x, 5), ((x) => { x; })(3));

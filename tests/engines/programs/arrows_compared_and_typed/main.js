import { print } from "host";
let f = () => 1, g = f;
print(f === g, f === (() => 1), typeof f, f instanceof Object);
print([1, 2, 3].indexOf(f), [f].indexOf(f), [0, f].includes(g));

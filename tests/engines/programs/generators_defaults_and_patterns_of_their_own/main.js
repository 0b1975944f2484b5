import { print } from "host";
function* g({ a = 1, b: [c, ...d] = "xyz" } = {}, e = () => [a, c].join(), ...f) { function e2() { return d.length + f.length; } a = yield e(); yield e(); }
let it = g({}, undefined, 7, 8);
print(it.next().value, it.next("A").value);
it = g({ a: 5, b: [6] }, () => "given");
print(it.next().value);

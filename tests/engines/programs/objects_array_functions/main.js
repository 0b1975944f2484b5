import { print } from "host";
let a = [3, 1];
print(a.push(4, 5), a.pop(), a.length, a.indexOf(4), a.indexOf(9), a.indexOf(3, 1), a.join("+"), a.join(), a.includes(1), a.includes(1, 2), Array.isArray(a), Array.isArray({ length: 0 }));
a.forEach(function (x, i, all) { print(x, i, all === a, this === a); }, a);
a.length = 1;
print(a.join(), [].pop(), [, 1].indexOf(undefined), [, 1].includes(undefined), [1, , 3].join("-"));
a[3] = "x";
print(a.length, a.join(), 1 in a);
[1, , 3].forEach(x => print(x));

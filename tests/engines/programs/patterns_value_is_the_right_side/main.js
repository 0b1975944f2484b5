import { print } from "host";
let x, y, right = [1, 2];
print(([x, y] = right) === right, x, y);
let f = () => ({ x, y = 9 } = { x: 5 });
print(f().y, x, y);
print(([x] = [y] = [4, 3]).length, x, y);
for (let i = 0; i < 2 && ([x] = [i]); i++) print(x);
if ([x] = [0]) print("true", x);

import { print } from "host";
function f(a) {
  for (let x of arguments) {
    print(x);
    if (x === 1) arguments[2] = "new";
    if (x === 2) arguments.length = 3;
  }
}
f(1, 2);

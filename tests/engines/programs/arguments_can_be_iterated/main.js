import { print } from "host";
function f() {
  let out = [];
  for (let x of arguments) out.push(x);
  let [a, ...b] = arguments;
  print(out.join(), a, b.join(), [...arguments, 0].join());
  print(arguments[Symbol.iterator] === [][Symbol.iterator]);
}
f(1, 2, 3);
f();

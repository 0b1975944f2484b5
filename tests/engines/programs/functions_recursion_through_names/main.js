import { print } from "host";
function even(n) { return n === 0 || odd(n - 1); }
function odd(n) { return n !== 0 && even(n - 1); }
print(even(10), odd(7), even(3));
let fib = n => n < 2 ? n : fib(n - 1) + fib(n - 2);
print(fib(12));

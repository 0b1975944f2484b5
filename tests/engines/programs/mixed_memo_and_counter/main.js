import { print } from "host";
const memo = f => { const seen = {}; return n => n in seen ? seen[n] : (seen[n] = f(n)); };
let calls = 0;
const fib = memo(n => { calls++; return n < 2 ? n : fib(n - 1) + fib(n - 2); });
print(fib(15), calls);
const counter = () => { let n = 0; return { up: () => ++n, down: () => --n, get value() { return n; } }; };
const a = counter(), b = counter();
a.up(); a.up(); b.down();
print(a.value, b.value);

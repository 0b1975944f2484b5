import { print } from "host";
function* naturals() { for (let n = 0; ; n++) yield n; }
function* filter(xs, f) { for (const x of xs) if (f(x)) yield x; }
function* take(xs, n) { if (n > 0) for (const x of xs) { yield x; if (--n === 0) return; } }
print([...take(filter(naturals(), n => n % 3 === 1), 5)].join());
function* primes() { let found = []; for (const n of naturals()) { if (n < 2) continue; let is = true; for (const p of found) { if (p * p > n) break; if (n % p === 0) { is = false; break; } } if (is) { found.push(n); yield n; } } }
print([...take(primes(), 10)].join());

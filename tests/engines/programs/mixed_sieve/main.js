import { print } from "host";
let sieve = n => { let out = [], no = []; for (let i = 2; i <= n; i++) { if (no[i]) continue; out.push(i); for (let j = i * i; j <= n; j += i) no[j] = true; } return out; };
print(sieve(50).join(" "), sieve(200).length);

import { print } from "host";
function f(n) {
  if (n === 0) return "a";
  else if (n === 1) return "b";
  else if (n === 2) return "c";
  else if ((n -= 1) === 2) { return "d"; }
  else if (n === 3) for (;;) return "e";
  else if (n === 4) try { return "f"; } finally { print("fin"); }
  else if ([n] = [n + 10], n > 15) return "g" + n;
  else return "h" + n;
}
for (let i = 0; i < 8; i++) print(f(i));

import { print } from "host";
function f(x) {
  if (x === 0) return "zero";
  else if (x === 1) { if (x) return "one"; else return "no"; }
  else if (x < 5) ;
  else return "many";
  return "few";
}
print(f(0), f(1), f(3), f(9));
if (0) print("no"); else if ("") print("no"); else if (null) print("no"); else if (undefined) print("no"); else print("all false");
if ("0") if ([]) if ({}) print("all true");

import { print } from "host";
function f(x) {
  switch (x) {
    case 1: print("one");
    case 2: print("two"); break;
    default: print("default");
    case 3: { let y = x; print("three", y); }
  }
}
f(1); f(2); f(3); f(4);
switch (1) {}
switch (5) { default: print("only"); }
switch ("1") { case 1: print("no"); break; case "1": print("text"); }

import { print } from "host";
function f(a, get = () => a, set = v => { a = v; }) {
  set(10);
  print(a, get());
  a = 20;
  print(a, get());
}
f(1);

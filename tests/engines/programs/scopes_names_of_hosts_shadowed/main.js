import { print as count, read } from "host";
function f(read) { return read + 1; }
count(f(1), read());
{
  let count = n => n * 2;
  let read = count(4);
  const print = read;
  f(print);
}
let print = 3;
count(print);

import { print } from "host";
print(typeof outer);
function outer() { return 1; }
{
  print(inner());
  function inner() { return other(); }
  function other() { return "other"; }
}
try { inner(); } catch (e) { print(e instanceof ReferenceError); }
function inner() { throw new ReferenceError(); }

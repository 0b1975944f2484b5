import { print } from "host";
function f() { return "outer"; }
{
  function f() { return "block"; }
  print(f());
  { let f = () => "let"; print(f()); }
}
print(f());

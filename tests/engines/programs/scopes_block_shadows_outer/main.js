import { print } from "host";
let x = 1;
{
  let x = 2;
  print(x);
  {
    const x = 3;
    print(x);
  }
  x += 10;
  print(x);
}
print(x);

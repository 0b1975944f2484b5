import { print } from "host";
for (let i = 0; i < 3; i++) {
  let x;
  print(x);
  x = i;
  print(x);
}

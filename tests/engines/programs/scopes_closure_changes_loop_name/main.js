import { print } from "host";
let bump;
for (let i = 0; i < 6; i++) {
  if (!bump) bump = () => { i += 2; return i; };
  print(i);
  if (i < 3) print(bump(), i);
}

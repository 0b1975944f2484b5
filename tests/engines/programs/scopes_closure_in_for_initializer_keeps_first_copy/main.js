import { print } from "host";
for (let i = 0, g = () => i; i < 2; i++) print(g(), i);

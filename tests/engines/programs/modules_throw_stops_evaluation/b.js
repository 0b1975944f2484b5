import { print } from "host";
print("b");

import { print } from "host";
print("d");

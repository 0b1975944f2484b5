import { print } from "host";
print("e");

import { print } from "host";
print("before");
throw { k: 1 };

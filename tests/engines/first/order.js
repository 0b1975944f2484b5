import { count, print } from "host";
let first = count(1, "a");
let second = count(first + 1, first + "b", first);
print(first + second, second + first + "c", "c" + second + first);
count();

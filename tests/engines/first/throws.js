import { print, count } from "host";
print("before");
let x = count("here");
print("after", x);

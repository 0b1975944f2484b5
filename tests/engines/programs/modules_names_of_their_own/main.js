import { print } from "host";
import { get as a } from "./a.js";
import { get as b } from "./b.js";
let x = "main";
function get() { return x; }
print(a(), b(), get());
var print1 = 1, value = print1;
print(value);

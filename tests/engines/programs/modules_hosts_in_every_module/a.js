import { count } from "host";
import { print as log } from "host";
export function twice(x) { log("twice", x); return x + count(x); }

import "host";
import {} from "host";
import { print, print as p } from "host";
export let say = (...a) => { p(...a); return print(a.length); };

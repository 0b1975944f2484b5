import { print } from "host";
import * as ns from "./b.js";
export let late = 1;
export function early() { return "early"; }
print(ns.done);

import { print } from "host";
import v from "./a.js";
try { v; } catch (e) { print(e instanceof ReferenceError); }
export let get = () => v;

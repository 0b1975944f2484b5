import { B } from "./b.js";
import { print } from "host";
try { print(B); } catch (e) { print("c", e instanceof ReferenceError); }

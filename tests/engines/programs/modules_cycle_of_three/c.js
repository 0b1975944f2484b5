import { print } from "host";
import { early } from "./a.js";
import { later } from "./b.js";
export var c = "c";
try { early; } catch (e) { print("c", e instanceof ReferenceError); }
try { later(); } catch (e) { print("c", e instanceof ReferenceError); }

import { print } from "host";
import { x, f } from "./main.js";
print(f());
try { x; } catch (e) { print(e instanceof ReferenceError); }
try { typeof x; } catch (e) { print(e instanceof ReferenceError); }
export let get = () => x;

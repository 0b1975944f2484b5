import { print } from "host";
import { b } from "./b.js";
import { setA, renamed } from "./main.js";
export var c = "c0";
export { c as again };
export default c;
try { print(b); } catch (e) { print("b", e instanceof ReferenceError); }
try { print(renamed); } catch (e) { print("renamed", e instanceof ReferenceError); }
export function push() { setA("a1"); c = "c1"; }
export const seeB = () => b;

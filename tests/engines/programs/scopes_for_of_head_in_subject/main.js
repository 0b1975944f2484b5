import { print } from "host";
let x = [1];
try { for (let x of x) print("no"); } catch (e) { print(e instanceof ReferenceError); }
let g;
try { for (const y of (g = () => y, [7])) print(y); } catch (e) { print("no"); }
try { g(); } catch (e) { print("still", e instanceof ReferenceError); }

import { print } from "host";
try { let y = y + 1; } catch (e) { print(e instanceof ReferenceError); }
try { let z = (() => z)(); } catch (e) { print(e instanceof ReferenceError); }
let later = () => w;
let w = 4;
print(later());

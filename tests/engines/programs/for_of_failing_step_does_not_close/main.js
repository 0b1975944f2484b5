import { print } from "host";
let make = step => ({ [Symbol.iterator]() { return this; }, next: step, return() { print("never"); return {}; } });
try { for (let x of make(() => { throw "n"; })) ; } catch (e) { print(e); }
try { for (let x of make(() => 1)) ; } catch (e) { print(e instanceof TypeError); }
try { for (let x of make(() => ({ get done() { throw "d"; } }))) ; } catch (e) { print(e); }
try { for (let x of make(() => ({ get value() { throw "v"; } }))) ; } catch (e) { print(e); }
for (let x of make(() => ({ done: 1, get value() { throw "not read"; } }))) ;

import { print } from "host";
let make = (step, tag) => ({ [Symbol.iterator]() { return this; }, next: step, return() { print("never", tag); return {}; } });
try { let [a] = make(() => { throw "next"; }, 1); } catch (e) { print(e); }
try { let [a] = make(() => 5, 2); } catch (e) { print(e instanceof TypeError); }
try { let [a] = make(() => ({ get done() { throw "done"; } }), 3); } catch (e) { print(e); }
try { let [a] = make(() => ({ done: false, get value() { throw "value"; } }), 4); } catch (e) { print(e); }

import { print } from "host";
let it = { [Symbol.iterator]() { return this; }, next() { return { value: null, done: false }; }, return() { print("closed"); return {}; } };
try { for (let { x } of it) ; } catch (e) { print(e instanceof TypeError); }
try { for (let [x] of it) ; } catch (e) { print(e instanceof TypeError); }
const k = 1;
try { for (k of it) ; } catch (e) { print(e instanceof TypeError); }
try { for ((() => { throw "t"; })().x of it) ; } catch (e) { print(e); }
try { for (later of it) ; } catch (e) { print(e instanceof ReferenceError); }
let later;

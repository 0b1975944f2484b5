import { print } from "host";
let make = tag => ({ [Symbol.iterator]() { return this; }, next() { return { value: undefined, done: false }; }, return() { print("close", tag); return tag === "c" ? 1 : {}; } });
let boom = () => { throw "boom"; };
try { let [a = boom()] = make("a"); } catch (e) { print(e); }
try { let [{ x }] = make("b"); } catch (e) { print(e instanceof TypeError); }
try { let [a = boom()] = make("c"); } catch (e) { print(e); }
try { let [a] = make("c"); } catch (e) { print(e instanceof TypeError); }
try { [boom().x] = make("d"); } catch (e) { print(e); }

import { print } from "host";
let it = { [Symbol.iterator]() { return this; }, next() { return { value: 1, done: false }; }, get return() { throw "get"; } };
try { for (let x of it) throw "body"; } catch (e) { print(e); }
let other = { [Symbol.iterator]() { return this; }, next() { return { value: 1, done: false }; }, return: 7 };
try { for (let x of other) throw "body"; } catch (e) { print(e instanceof TypeError); }
try { let [a = (() => { throw "default"; })()] = { [Symbol.iterator]() { return this; }, next() { return { done: false }; }, get return() { throw "get"; } }; } catch (e) { print(e); }

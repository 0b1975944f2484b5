import { print } from "host";
let it = { [Symbol.iterator]() { return this; }, next() { return { value: 1, done: false }; }, return() { return 5; } };
try { for (let v of it) break; } catch (e) { print(e instanceof TypeError); }
try { for (let v of it) throw 9; } catch (e) { print(e); }
it.return = () => { throw "r"; };
try { for (let v of it) break; } catch (e) { print(e); }
try { for (let v of it) throw 9; } catch (e) { print(e); }
it.return = null;
for (let v of it) break;
it.return = undefined;
for (let v of it) break;
it.return = 3;
try { for (let v of it) break; } catch (e) { print(e instanceof TypeError); }

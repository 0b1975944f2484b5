import { print } from "host";
function* g() { yield 1; }
let o = g(), next = o.next;
try { next(); } catch (e) { print(e instanceof TypeError); }
try { next.call({}); } catch (e) { print(e instanceof TypeError); }
try { o.return.call(g); } catch (e) { print(e instanceof TypeError); }
try { next.call(Object.create(o)); } catch (e) { print(e instanceof TypeError); }
print(next.call(o).value, o[Symbol.iterator]() === o);

import { print } from "host";
try { let {} = null; } catch (e) { print(1, e instanceof TypeError); }
try { let { a } = undefined; } catch (e) { print(2, e instanceof TypeError); }
try { ({} = undefined); } catch (e) { print(3, e instanceof TypeError); }
try { let { a: { b } } = { a: null }; } catch (e) { print(4, e instanceof TypeError); }
let { c = 1 } = { c: null };
print(c);

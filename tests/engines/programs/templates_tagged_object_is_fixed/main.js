import { print } from "host";
let tag = t => t;
let a = tag`x${1}y`;
print(Array.isArray(a), Array.isArray(a.raw), a.length);
try { a[0] = "z"; } catch (e) { print(e instanceof TypeError); }
try { a.push(1); } catch (e) { print(e instanceof TypeError); }
try { a.raw[0] = "z"; } catch (e) { print(e instanceof TypeError); }
try { a.raw = 1; } catch (e) { print(e instanceof TypeError); }
try { delete a[0]; } catch (e) { print(e instanceof TypeError); }
try { a.length = 0; } catch (e) { print(e instanceof TypeError); }
print(a[0], a.raw[0]);

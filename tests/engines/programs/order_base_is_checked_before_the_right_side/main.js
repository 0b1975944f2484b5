import { print } from "host";
let nothing = null, key = { toString() { print("key"); return "k"; } };
try { nothing[key] = print("right"); } catch (e) { print(e instanceof TypeError); }
try { nothing.k = print("right"); } catch (e) { print(e instanceof TypeError); }
let o = {};
o[key] = print("right");
print(o.k);

import { print } from "host";
import * as ns from "./a.js";
try { print(`${ns}`); } catch (e) { print(e instanceof TypeError); }
try { print(ns + 1); } catch (e) { print(e instanceof TypeError); }
print(ns == ns, ns === {}, !ns, typeof ns.toString);

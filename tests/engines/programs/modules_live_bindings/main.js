import { print } from "host";
import { n, inc, n as alias } from "./c.js";
print(n, alias);
inc();
print(n, alias);
try { n = 5; } catch (e) { print(e instanceof TypeError); }
try { n++; } catch (e) { print(e instanceof TypeError); }
try { [n] = [1]; } catch (e) { print(e instanceof TypeError); }
try { n += print("right"); } catch (e) { print(e instanceof TypeError); }
print(n, (() => n)());

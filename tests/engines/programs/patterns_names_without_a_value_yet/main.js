import { print } from "host";
try { let [a = b, b] = []; } catch (e) { print(e instanceof ReferenceError); }
try { let { [c]: d, c } = {}; } catch (e) { print(e instanceof ReferenceError); }
let { e: f, [f]: g } = { e: "k", k: 2 };
print(f, g);

import { print } from "host";
try { x; } catch (e) { print(1, e instanceof ReferenceError); }
try { x = 5; } catch (e) { print(2, e instanceof ReferenceError); }
try { typeof x; } catch (e) { print(3, e instanceof ReferenceError); }
try { x++; } catch (e) { print(4, e instanceof ReferenceError); }
try { x += print("no"); } catch (e) { print(5, e instanceof ReferenceError); }
let x = 1;
print(x, typeof x);

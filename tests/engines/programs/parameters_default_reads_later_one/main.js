import { print } from "host";
try { (function (a = b, b = 1) {})(); } catch (e) { print(e instanceof ReferenceError); }
try { (function (a = a) {})(); } catch (e) { print(e instanceof ReferenceError); }
(function (a = () => b, b = 2) { print(a()); })();
(function (a, b = a) { print(a, b); })(3);

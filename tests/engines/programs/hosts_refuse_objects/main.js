import { print } from "host";
for (const v of [{}, [], () => 1, function () {}, class {}]) try { print(1, v); } catch (e) { print(e instanceof TypeError); }
try { print(...[1, [2]]); } catch (e) { print(e instanceof TypeError); }
print();
print({});

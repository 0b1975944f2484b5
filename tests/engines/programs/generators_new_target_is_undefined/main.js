import { print } from "host";
function* g() { yield new.target; yield (() => new.target === undefined)(); }
for (let v of g()) print(v);

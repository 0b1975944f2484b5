import { print } from "host";
let e = Object.create(TypeError.prototype);
print(e instanceof TypeError, e.message, e.name);
throw e;

import { print } from "host";
let Object = "o", Array = "a", String = "s", undefined = "u";
print(Object, Array, String, undefined);
function f(TypeError) { return TypeError; }
print(f(1));
let o = { k: [1, ...[2]] };
print(o.k.length, `${o.k}`);

import { print } from "host";
print(`${[1, [2, 3]]}`, `${{}}`, String(null), String(undefined), String(true), String(), String([]), [null, undefined, 1].join(), [[], [[]]].toString());
print({}.toString(), [].toString(), (12).toString(10), {}.valueOf === Object.prototype.valueOf, Object.prototype.toString.call([]), Object.prototype.toString.call(null), Object.prototype.toString.call("t"));
print(new Error("m").toString(), Object.prototype.toString.call(new Error()), Object.prototype.toString.call(() => 1));

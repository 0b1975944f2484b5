import { print } from "host";
print(typeof 1, typeof "t", typeof true, typeof undefined, typeof null, typeof {}, typeof [], typeof (() => 1), typeof class {}, typeof function* () {});
print(void print("effect"), typeof void 0, typeof typeof 1, typeof Object, typeof Error.prototype);

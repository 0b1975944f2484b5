import { print } from "host";
let o = {}, p = {};
print(1 == "1", 1 === "1", null == undefined, null === undefined, o == o, o == p, "a" == ["a"], true == 1, "" == 0);
print({ valueOf() { return 3; } } == 3, 3 != "3", "b" !== "b", null == 0, false == null, "1" == true);
print([1, 2] == "1,2", o != p, o !== o);

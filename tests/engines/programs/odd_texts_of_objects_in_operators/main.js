import { print } from "host";
let o = (n) => ({ toString() { print("toString", n); return n; }, valueOf() { print("valueOf", n); return n.length; } });
print(o("a") + o("bb"), o("a") < o("bb"), o("a") == 1, 2 == o("bb"), `${o("c")}`, o("d") * 3, "" + o("e"), +o("ff"), o("x") + "y");
print({ k: 1 }[o("k")], { [o("k")]: 5 }.k, o("k") in { k: 1 }, [1, 2, 3][o("1")], "abc".charAt(o("z")));
let t = (v) => ({ toString() { return v; }, valueOf() { return {}; } });
print(t("text") + 1, t("5") * 2, [t("in")] + "", [1, [2, undefined, null]] + "");
try { ({ toString() { return {}; }, valueOf() { return []; } }) + 1; } catch (e) { print(e instanceof TypeError); }
try { `${Object.create({ toString: 5, valueOf: undefined })}`; } catch (e) { print(e instanceof TypeError); }
print(null == undefined, null == 0, "" == 0, "1" == 1, true == 1, true == "1", [] == "", [1] == 1, o === o, "b" > "a", "10" < "9", "10" < 9, null >= 0);
print(typeof null, typeof undefined, typeof (() => 1), typeof class { }, typeof {}, typeof "", typeof 1, typeof true, void 0);
print(1 + true, "1" + null, 1 + null, [] + [], "a" + undefined, -"3", +"", +" 7 ", +true, ~5, ~~"8", 7 >>> 1, -7 >> 1, 1 << 33, 5 & "3", 5 ^ 1, -5 % 3, 2 ** 10);

import { print } from "host";
print(7 - 10, 6 / 3, -7 % 3, 7 % -3, 0 * -5, 2 * -3, "3" * "4", true + true, null + 1, "5" - 2, +"12", -"3", +true, - -1);
print(1 + "a", "a" + 1, 1 + 2 + "b" + 1 + 2, "" + null, "" + undefined, "" + true, "x" + -0);
print(9007199254740990 + 1, -9007199254740990 - 1, 0 / 5, 10 % 5);

import { count, print } from "host";
let yes = count(); let none = count(); let nothing = count(); let text = count(); let minus = count();
print(yes, none, nothing, text, minus);
print(yes + 1, none + 1, minus + 1, minus + text, yes + text, none + text, nothing + text, text + minus + 1);

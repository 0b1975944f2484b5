import { print } from "host";
let a = 1, b = "two";
print(`${a}`, `x${a}y${b}z`, ``, `${""}`, `${a + 1}${`in${b}ner`}`, `$a {a} $`, `\${a}`, `a
b`, `\x41\u0042\u{43}\n\``);
print(`${null}${undefined}${true}${[1, 2]}${{}}`, `${1}${2}` + `${3}`, typeof `${1}`);

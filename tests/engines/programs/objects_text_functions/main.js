import { print } from "host";
let s = "hello, world";
print(s.charAt(4), s.charAt(99), s.charCodeAt(0), s.indexOf("o"), s.indexOf("o", 5), s.indexOf("zz"), s.indexOf(""), s.substring(7), s.substring(3, 1), s.substring(-5, 2), s.length);
print("a\u0000b".length, "\x41\u{42}\u0043", "tab\tnl\n", 'q"q', "\\", "line\
joined");
print("😀".length, "😀".charCodeAt(0), "\u{1F600}" === "😀", "\ud83d" + "\ude00" === "😀");

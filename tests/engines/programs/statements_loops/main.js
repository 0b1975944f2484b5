import { print } from "host";
let i = 0, s = "";
for (;;) { if (i++ > 3) break; if (i === 2) continue; s += i; }
while (i-- > 0) s += "w";
do s += i++; while (i < 2);
for (var j = 0, k = 5; j < k; j++, k--) s += `${j}${k}`;
for (; j < 5;) j++;
print(s, i, j, k);
do ; while (false) print("same line");

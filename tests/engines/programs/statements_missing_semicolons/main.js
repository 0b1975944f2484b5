import { print } from "host"
let b = c => "called " + c, i = 0, c = 1, a
a = b
(c)
print(a)
i
++
c
print(i, c)
let f = function () { return
  1
}
print(f())
do i++; while (i < 3) print(i)
var o = { a: 1 }
; [a] = [5]
print(a, o.a)
if (a) print("if")
else print("else")

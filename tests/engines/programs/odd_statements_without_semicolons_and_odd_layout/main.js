import { print } from "host"
let a = 1, L = 5
let b = a
++b
print(a, b)
const f = () => { return
  5 }
print(f())
let c = "x"
;[1, 2].forEach((v) => print(v))
do print("do"); while (false) print("same line")
if (a) ; else print("no")
for (; ;) { break }
let g = function* () { yield
  1; yield [2][0] }
print([...g()].length)
let t = `a`
;`b`
var async
async
= 3
print(async, a /* comment
*/ + b) // end
{ } { ; } ; ; { a: { } }
let o = { get
  x() { return 1 }, set
  x(v) { }, a
, }; print(o.x, o.a)
class K { static
  m() { return 2 }
  ; get
  y() { return 3 } }
print(K.m(), new K().y); print
(4)
L: for (let i = 0; i < 2; i++) { continue
  L }
var i
i
++
i


import { print } from "host";
function* g(a) {
  print(a && (yield "and"), a || (yield "or"), a ? yield "yes" : yield "no");
  print((yield 1) && (yield 2) || (yield 3));
  if (yield "if") print("then"); else if (yield "else if") print("second"); else print("else");
  return (yield 4) ? (yield 5) : (yield 6);
}
for (let start of [0, 1]) {
  let o = g(start), r = o.next(), n = 0;
  while (!r.done) { print(r.value); r = o.next(n++ % 3 === start); }
  print("end", r.value);
}

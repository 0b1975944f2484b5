import { print } from "host";
function f(v) {
  let out = [];
  switch (v) {
    case g(1): out.push("one"); let a = "a" + v; 
    case 2: { let a = "inner"; out.push(a); }
    default: out.push("default", typeof g); if (v === 3) break;
    case "x": function g(n) { return n; } out.push(g(9));
    case a2(): const c = () => c; out.push(typeof c());
  }
  return out.join();
}
function a2() { return NaN2; } let NaN2 = 77;
print(f(1), f(2), f(3), f("x"), f(77), f(null));
function* h(v) { switch (yield "v") { case yield "a": yield "A"; default: yield "D"; let z = yield "z"; print(z); break; case yield "b": { yield "B"; } case 0: yield "zero"; } return "end"; }
for (const answers of [[0, 1, 1], [0, 2, 3, 2], [0, 9, 8, 7, "seen"]]) {
  let i = h(), out = "", r = i.next(), n = 0;
  while (!r.done) { out += r.value; r = i.next(answers[++n]); }
  print(out, r.value);
}
switch (1) { } switch (print("subject")) { default: } 
L: switch (0) { default: for (;;) { switch (1) { case 1: break L; } } }
for (const i of [1, 2, 3]) { switch (i) { case 2: continue; } print(i); }

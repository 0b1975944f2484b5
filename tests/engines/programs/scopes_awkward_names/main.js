import { print } from "host";
let $ = 1, _ = 2, $$ = 3, a$ = 4, a$0 = 5, a$1 = 6, of = 7, get = 8, set = 9, as = 10, from = 11, target = 12;
let é = "e", 名 = "n";
print($, _, $$, a$, a$0, a$1, of, get, set, as, from, target, é, 名);
function call(apply, own, empty, pending) { return apply + own + empty + pending; }
print(call(1, 2, 3, 4));
let check_ready = 1, cell = 2, hasOwnProperty = 3, callee = 4, frame = 5, passed = 6;
print((() => check_ready + cell + hasOwnProperty + callee + frame + passed)());

import { print as call } from "host";
let print = 1, count = 2, read = 3, empty = 4, apply = 5, has_own = 6, pending = 7, callee = 8, frame = 9, v$17 = 10, v$1 = 11;
let check_ready = 12, is_object = 13, class_make = 14, construct = 15, spread_list = 16, rest_list = 17, self = 18, target = 19, NaN = 20, Infinity = 21;
let int = 22, char = 23, of = 24, async = 25, get = 26, set = 27, from = 28, as = 29, Symbol2 = 30, $ = 31, _ = 32, $$ = 33, e$15 = 34, é = 35, ab = 36, state = 37, iterator = 38, Map = 39, JSON = 40, eval2 = 41, goto = 42, boolean = 43, native = 44, abstract = 45;
call(print, count, read, empty, apply, has_own, pending, callee, frame, v$17, v$1);
call(check_ready, is_object, class_make, construct, spread_list, rest_list, self, target, NaN, Infinity);
call(int, char, of, async, get, set, from, as, Symbol2, $, _, $$, e$15, é, ab, state, iterator, Map, JSON, eval2, goto, boolean, native, abstract);
class frame2 { constructor(frame) { this.frame = frame; } static callee(callee) { return callee; } }
class pending2 extends frame2 { constructor(...arguments2) { super(...arguments2); } }
call(new pending2(5).frame, pending2.callee(6));
function undefined2(undefined) { return undefined; } call(undefined2(7));
{ let Object = 1, Array = 2, TypeError = 3, ReferenceError = 4, String = 5, Error = 6; call(Object, Array, TypeError, ReferenceError, String, Error, [...[7]][0], `${8}`); let { x } = { x: 9 }; call(x); class K { m() { return 1; } } call(new K().m()); try { late; } catch (e) { call(typeof e); } let late; }

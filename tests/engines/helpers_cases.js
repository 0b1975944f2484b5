// Pieces of modules, and what scripts say in their place. `not` names the engines whose own faults a case would show.
'use strict';
const cases = [];
const add = (name, native, script, not = []) => cases.push({ name, native, script, not });

// what many cases show: whether a call throws, and an error of which kind
const kind = 'function kind(f) { try { f(); return "ok"; } catch (e) { return e instanceof TypeError ? "TypeError" : e instanceof ReferenceError ? "ReferenceError" : "other"; } }\n';
const add_kind = (name, native, script, not) => add(name, kind + native, kind + script, not);

// ---- names

add_kind('a name is read before and behind its declaration',
  'const f = () => x; print(kind(f)); let x = 3; print(kind(f), f());',
  'var x = empty; function f() { return check_ready(x); } print(kind(f)); x = 3; print(kind(f), f());');
add_kind('undefined, null and false are ready',
  'let a, b = null, c = false; print(a, b, c);',
  'print(check_ready(void 0), check_ready(null), check_ready(false));');
add_kind('a constant is written',
  'const x = 1; print(kind(() => { x = 2; }), x);',
  'var x = 1; print(kind(function () { 2; refuse_const(); }), x);');
add('each turn of a loop has a name of its own',
  'const list = []; for (let i = 0; i < 3; i++) list.push(() => i++); print(list[0](), list[0](), list[1](), list[2]());',
  'var list = [], i = cell_make(empty); i.v = 0; i = cell_make(i.v); for (; i.v < 3; i = cell_make(i.v), i.v++) (function (i) { list.push(function () { return i.v++; }); })(i); print(list[0](), list[0](), list[1](), list[2]());');

// ---- texts and keys

add('a template converts by toString',
  'print(`${1}${true}${null}${undefined}${[1, [2, 3]]}${{ toString() { return "s"; }, valueOf() { return "v"; } }}`);',
  'print(to_text(1) + to_text(true) + to_text(null) + to_text(void 0) + to_text([1, [2, 3]]) + to_text({toString: function () { return "s"; }, valueOf: function () { return "v"; }}));');
add('a computed key is converted once',
  'let n = 0; const key = { toString() { n += 1; return "k"; } }; const o = { [key]: 1 }; print(o.k, n);',
  'var n = 0, key = {toString: function () { n += 1; return "k"; }}, o = {}, t = to_text(key); method_put(o, t, 1, false); print(o.k, n);');

// ---- iterators

const loop = (subject, body) => 'var it = iter_start(' + subject + ', 0), r; while ((r = iter_step(it)) !== false) { ' + body + ' }';
add('the values of an array, which grows',
  'const a = [1, 2]; for (const x of a) { print(x); if (a.length < 4) a.push(x * 10); }',
  'var a = [1, 2]; ' + loop('a', 'var x = iter_value(r); print(x); if (a.length < 4) a.push(x * 10);'));
add('the code points of a text',
  'const out = []; for (const c of "a\\uD83D\\uDE00\\uD800b\\uDC00") out.push(c.length); print(out.join());',
  'var out = []; ' + loop('"a\\uD83D\\uDE00\\uD800b\\uDC00"', 'out.push(iter_value(r).length);') + ' print(out.join());');
add('a lone surrogate in front of a whole pair',
  'print([..."\\uD83D\\uD83D\\uDE00"].map((c) => c.charCodeAt(0) + "/" + c.length).join());',
  'var out = []; ' + loop('"\\uD83D\\uD83D\\uDE00"', 'out.push(iter_value(r).charCodeAt(0) + "/" + iter_value(r).length);') + ' print(out.join());');
add('the first and the last surrogates',
  'print([..."\\uD800\\uDC00\\uDBFF\\uDFFF\\uD800\\uDBFF\\uE000\\uDC00"].map((c) => c.length).join());',
  'var out = []; ' + loop('"\\uD800\\uDC00\\uDBFF\\uDFFF\\uD800\\uDBFF\\uE000\\uDC00"', 'out.push(iter_value(r).length);') + ' print(out.join());');
add_kind('the iterator methods of the library, of nothing',
  'print(kind(() => [][Symbol.iterator].call(undefined)), kind(() => [][Symbol.iterator].call(null)), kind(() => ""[Symbol.iterator].call(undefined)), kind(() => ""[Symbol.iterator].call(null)));',
  'print(kind(function () { iter_start([], 1).call(void 0); }), kind(function () { iter_start([], 1).call(null); }), kind(function () { iter_start("", 1).call(void 0); }), kind(function () { iter_start("", 1).call(null); }));');
add('the iterator method of texts of what is none, and that of lists of a text',
  'print([...{ [Symbol.iterator]: ""[Symbol.iterator], toString() { return "ab"; } }].join(), [...{ [Symbol.iterator]: [][Symbol.iterator], length: 2, 0: "x", 1: "y" }].join(), [][Symbol.iterator].call("cd").next().value);',
  'print(spread_list([], {"@@iterator": iter_start("", 1), toString: function () { return "ab"; }}, 1).join(), spread_list([], {"@@iterator": iter_start([], 1), length: 2, 0: "x", 1: "y"}, 1).join(), iter_start([], 1).call("cd").next().value);');
add_kind('what has no iterator',
  'print([5, true, {}, null, undefined, () => 0].map((v) => kind(() => { for (const x of v); })).join());',
  'var out = [], list = [5, true, {}, null, void 0, function () {}], i; for (i = 0; i < list.length; i += 1) out.push(kind(function () { iter_start(list[i], 0); })); print(out.join());');
add('an iterator of an own object',
  'const o = { n: 0, [Symbol.iterator]() { return this; }, next() { this.n += 1; return { done: this.n > 3, value: this.n }; } }; for (const x of o) print(x);',
  'var o = {n: 0, "@@iterator": function () { return this; }, next: function () { this.n += 1; return {done: this.n > 3, value: this.n}; }}; ' + loop('o', 'print(iter_value(r));'));
add('the value is read only where it is not done',
  'const o = { [Symbol.iterator]() { return { n: 0, next() { const n = this.n++; return { get done() { print("done"); return n > 0; }, get value() { print("value"); return n; } }; } }; } }; for (const x of o) print(x);',
  'var o = {"@@iterator": function () { return {n: 0, next: function () { var n = this.n++; return {get done() { print("done"); return n > 0; }, get value() { print("value"); return n; }}; }}; }}; ' + loop('o', 'print(iter_value(r));'));
add_kind('a result that is no object',
  'const o = { [Symbol.iterator]() { return { next() { return 1; } }; } }; print(kind(() => { for (const x of o); }));',
  'var o = {"@@iterator": function () { return {next: function () { return 1; }}; }}; print(kind(function () { iter_step(iter_start(o, 0)); }));');
add_kind('an iterator that is no object, and one without next',
  'const o = { [Symbol.iterator]() { return 1; } }, p = { [Symbol.iterator]() { return {}; } }; print(kind(() => { for (const x of o); }), kind(() => { for (const x of p); }));',
  'var o = {"@@iterator": function () { return 1; }}, p = {"@@iterator": function () { return {}; }}; print(kind(function () { iter_start(o, 0); }), kind(function () { iter_step(iter_start(p, 0)); }));');
add('the arguments of next are none',
  'const o = { [Symbol.iterator]() { return { next() { print(arguments.length); return { done: true }; } }; } }; for (const x of o);',
  'var o = {"@@iterator": function () { return {next: function () { print(arguments.length); return {done: true}; }}; }}; iter_step(iter_start(o, 0));');
add('the iterator method alone is read',
  'const a = [7], f = a[Symbol.iterator], o = {}; print(typeof f, f === [][Symbol.iterator], f === ""[Symbol.iterator], o[Symbol.iterator], f.call([8]).next().value);',
  'var a = [7], f = iter_start(a, 1), o = {}; print(typeof f, f === iter_start([], 1), f === iter_start("", 1), iter_start(o, 1), f.call([8]).next().value);');
add_kind('the iterator method of nothing',
  'print(kind(() => null[Symbol.iterator]), kind(() => 5[Symbol.iterator]));',
  'print(kind(function () { iter_start(null, 1); }), kind(function () { iter_start(5, 1); }));');
add('an iterator of an array is done for good',
  'const a = [1], it = a[Symbol.iterator](); print(it.next().value, it.next().done); a.push(2); print(it.next().done, it.next().value, it[Symbol.iterator]() === it);',
  'var a = [1], it = iter_start(a, 1).call(a); print(it.next().value, it.next().done); a.push(2); print(it.next().done, it.next().value, iter_start(it, 0) === it);');
add_kind('next of another object',
  'const { next } = [][Symbol.iterator](), other = ""[Symbol.iterator]().next; print(kind(() => next.call({})), kind(() => next.call(""[Symbol.iterator]())), kind(() => other.call([])), kind(() => next.call(null)));',
  'var next = iter_start([], 1).call([]).next, other = iter_start("", 1).call("").next; print(kind(function () { next.call({}); }), kind(function () { next.call(iter_start("", 1).call("")); }), kind(function () { other.call([]); }), kind(function () { next.call(null); }));');
add('an iterator is closed by a break',
  'const o = { [Symbol.iterator]() { return { next() { return { done: false, value: 1 }; }, return() { print("closed", arguments.length); return {}; } }; } }; for (const x of o) break; print("behind");',
  'var o = {"@@iterator": function () { return {next: function () { return {done: false, value: 1}; }, "return": function () { print("closed", arguments.length); return {}; }}; }}; iter_close(iter_start(o, 0), false); print("behind");');
add_kind('what an iterator without return, or with one that is nothing, is closed by',
  'const o = (r) => ({ [Symbol.iterator]() { return { next() { return { done: false }; }, return: r }; } }); for (const r of [undefined, null, 1, () => 1, () => { throw new ReferenceError(); }]) print(kind(() => { for (const x of o(r)) break; }));',
  'function o(r) { return {next: function () { return {done: false}; }, "return": r}; } var list = [void 0, null, 1, function () { return 1; }, function () { throw new ReferenceError(); }], i; for (i = 0; i < list.length; i += 1) print(kind(function () { iter_close(o(list[i]), false); }));');
add('a throw under way stands before one of the closing',
  'const o = { [Symbol.iterator]() { return { next() { return { done: false }; }, return() { print("closed"); throw "inner"; } }; } }; try { for (const x of o) throw "outer"; } catch (e) { print(e); }',
  'var it = {"return": function () { print("closed"); throw "inner"; }}; try { try { throw "outer"; } catch (e) { iter_close(it, true); throw e; } } catch (e) { print(e); }');
add('a throw under way stands before a result that is no object',
  'const o = { [Symbol.iterator]() { return { next() { return { done: false }; }, return() { return 1; } }; } }; try { for (const x of o) throw "outer"; } catch (e) { print(e); }',
  'var it = {"return": function () { return 1; }}; try { try { throw "outer"; } catch (e) { iter_close(it, true); throw e; } } catch (e) { print(e); }');

// ---- lists

add('the arguments from a parameter on',
  'function f(a, ...b) { return b.length + ":" + b.join(); } print(f(), f(1), f(1, 2), f(1, 2, undefined, 4));',
  'function f(a) { var b = rest_list(arguments, 1); return b.length + ":" + b.join(); } print(f(), f(1), f(1, 2), f(1, 2, void 0, 4));');
add('elements, iterables and holes',
  'const l = [1, ..."ab", , ...[2, , 3], undefined]; print(l.length, 3 in l, 5 in l, 7 in l, l.join());',
  'var hole = spread_list([2], void 0, 2), l = [1]; hole[hole.length] = 3; l = spread_list(l, "ab", 1); l = spread_list(l, void 0, 2); l = spread_list(l, hole, 1); l = spread_list(l, void 0, 0); print(l.length, 3 in l, 5 in l, 7 in l, l.join());');
add('a spread is not closed, and its throw goes on',
  'const o = { [Symbol.iterator]() { return { n: 0, next() { if (this.n++ > 1) throw "end"; return { done: false, value: this.n }; }, return() { print("closed"); } }; } }; try { print(...o); } catch (e) { print(e); }',
  'var o = {"@@iterator": function () { return {n: 0, next: function () { if (this.n++ > 1) throw "end"; return {done: false, value: this.n}; }, "return": function () { print("closed"); }}; }}; try { apply.call(print, void 0, spread_list([], o, 1)); } catch (e) { print(e); }');
add('arguments can be gone over',
  'function f() { let s = 0; for (const x of arguments) s += x; return s + ":" + [...arguments].length + ":" + arguments.length; } print(f(1, 2, 3), f());',
  'function f() { var given = arguments_put(arguments), s = 0; ' + loop('given', 's += iter_value(r);') + ' return s + ":" + spread_list([], given, 1).length + ":" + given.length; } print(f(1, 2, 3), f());');

// ---- construction and classes

const guarded = 'var frame; frame = class_guard(callee); ';
const A = 'var A = class_make(false, void 0, function callee(x) { ' + guarded + 'this.x = x; });\n';
const native_A = 'class A { constructor(x) { this.x = x; } }\n';
add('new with a list of arguments',
  'function F(a, b) { this.s = a + b; } F.prototype.k = 5; const o = new F(...[1, 2]); print(o.s, o.k, o instanceof F, new F(1, 1).s);',
  'function F(a, b) { this.s = a + b; } F.prototype.k = 5; var o = construct(F, spread_list([], [1, 2], 1)); print(o.s, o.k, o instanceof F, construct(F, [1, 1]).s);');
add('new of a function that returns, and of one whose prototype is no object',
  'function F(r) { this.a = 1; return r; } const o = {}; print(new F(o) === o, new F(3).a, new F(null).a); F.prototype = 5; print(new F() instanceof Object, new F().a);',
  'function F(r) { this.a = 1; return r; } var o = {}; print(construct(F, [o]) === o, construct(F, [3]).a, construct(F, [null]).a); F.prototype = 5; print(construct(F, []) instanceof Object, construct(F, []).a);');
add_kind('new of errors, and of what is no function',
  'print([Error, TypeError, ReferenceError, RangeError].map((E) => new E("m").message + (new E() instanceof E)).join(), kind(() => new 5()), kind(() => new (void 0)()), kind(() => new {}()));',
  'var out = [], list = [Error, TypeError, ReferenceError, RangeError], i; for (i = 0; i < 4; i += 1) out.push(construct(list[i], ["m"]).message + (construct(list[i], []) instanceof list[i])); print(out.join(), kind(function () { construct(5, []); }), kind(function () { construct(void 0, []); }), kind(function () { construct({}, []); }));');
add_kind('a class is called without new',
  native_A + 'print(kind(() => A()), kind(() => A.call({})), new A(1).x, kind(() => A(1)));',
  A + 'print(kind(function () { A(); }), kind(function () { A.call({}); }), construct(A, [1]).x, kind(function () { A(1); }));');
add_kind('a class is called in its own constructor, without new',
  'let n = 0; class A { constructor() { n += 1; if (n < 3) A(); } } print(kind(() => new A()), n);',
  'var n = 0, A = class_make(false, void 0, function callee() { ' + guarded + 'n += 1; if (n < 3) A(); }); print(kind(function () { construct(A, []); }), n);');
add('new.target of a call and of a construction',
  'function F() { return new.target === undefined ? "none" : { seen: new.target === F }; } print(F(), new F().seen, F.call({}));',
  'function F() { var callee = F, frame = {self: this, target: new_target(callee)}; return frame.target === void 0 ? "none" : {seen: frame.target === F}; } print(F(), construct(F, []).seen, F.call({}));');
add('new.target where the function calls itself',
  'function F(n) { const t = new.target; return n > 0 ? { a: t === F, b: F(0) } : String(t); } const o = new F(1); print(o.a, o.b, F(0));',
  'function F(n) { var callee = F, frame = {self: this, target: new_target(callee)}, t = frame.target; return n > 0 ? {a: t === F, b: F(0)} : String(t); } var o = construct(F, [1]); print(o.a, o.b, F(0));');
add('new.target of a class through super',
  'class A { constructor() { this.t = new.target; } } class B extends A { constructor() { super(); } } print(new A().t === A, new B().t === B);',
  'var A = class_make(false, void 0, function callee() { ' + guarded + 'this.t = frame.target; }), B = class_make(true, A, function callee() { ' + guarded + 'this_bind(frame, super_construct(frame, [])); }); print(construct(A, []).t === A, construct(B, []).t === B);');
const B = 'var B = class_make(true, A, function callee(x) { ' + guarded + 'this_bind(frame, super_construct(frame, [x * 2])); check_ready(frame.self).y = x; });\n';
const native_B = 'class B extends A { constructor(x) { super(x * 2); this.y = x; } }\n';
add('a derived class',
  native_A + native_B + 'const b = new B(4); print(b.x, b.y, b instanceof A, b instanceof B, b.constructor === B, B.prototype.constructor === B);',
  A + B + 'var b = construct(B, [4]); print(b.x, b.y, b instanceof A, b instanceof B, b.constructor === B, B.prototype.constructor === B);');
add_kind('this before super, super twice, and no super',
  native_A + 'class C extends A { constructor(n) { if (n === 0) this.a = 1; if (n > 0) super(); if (n > 1) super(); } } print(kind(() => new C(0)), kind(() => new C(1)), kind(() => new C(2)), kind(() => new C(-1)));',
  A + 'var C = class_make(true, A, function callee(n) { ' + guarded + 'if (n === 0) check_ready(frame.self).a = 1; if (n > 0) this_bind(frame, super_construct(frame, [])); if (n > 1) this_bind(frame, super_construct(frame, [])); }); print(kind(function () { construct(C, [0]); }), kind(function () { construct(C, [1]); }), kind(function () { construct(C, [2]); }), kind(function () { construct(C, [-1]); }));');
add_kind('what a derived constructor returns',
  native_A + 'const o = {}; class C extends A { constructor(r) { super(7); return r; } } print(new C(o) === o, new C(undefined).x, kind(() => new C(1)), kind(() => new C(null)));',
  A + 'var o = {}, C = class_make(true, A, function callee(r) { ' + guarded + 'this_bind(frame, super_construct(frame, [7])); return r; }); print(construct(C, [o]) === o, construct(C, [void 0]).x, kind(function () { construct(C, [1]); }), kind(function () { construct(C, [null]); }));');
add('a class of a plain function, and a default constructor',
  'function F(a) { this.a = a; } class C extends F {} const c = new C(5); print(c.a, c instanceof F, c instanceof C);',
  'function F(a) { this.a = a; } var C = class_make(true, F, function callee() { ' + guarded + 'this_bind(frame, super_construct(frame, spread_list([], rest_list(arguments, 0), 1))); }), c = construct(C, [5]); print(c.a, c instanceof F, c instanceof C);');
add_kind('heritage that is no constructor, or whose prototype is no object',
  'function F() {} F.prototype = 3; print(kind(() => { class C extends 5 {} }), kind(() => { class C extends undefined {} }), kind(() => { class C extends F {} }), kind(() => { class C extends ({ prototype: {} }) {} }));',
  'function F() {} F.prototype = 3; print(kind(function () { class_make(true, 5, function callee() {}); }), kind(function () { class_make(true, void 0, function callee() {}); }), kind(function () { class_make(true, F, function callee() {}); }), kind(function () { class_make(true, {prototype: {}}, function callee() {}); }));');
add_kind('the prototype of a class is not written',
  native_A + 'print(kind(() => { A.prototype = {}; }), kind(() => { A.prototype.k = 1; }), new A().k, kind(() => { A.prototype.constructor = 5; }), new A().constructor);',
  A + 'print(kind(function () { A.prototype = {}; }), kind(function () { A.prototype.k = 1; }), construct(A, []).k, kind(function () { A.prototype.constructor = 5; }), construct(A, []).constructor);');
add('methods, accessors and super',
  'class A { m() { return "A" + this.n; } get g() { return "g" + this.n; } } class B extends A { m() { return "B" + super.m(); } get g() { return "h" + super.g; } } const b = new B(); b.n = 1; print(b.m(), b.g, B.prototype.m.call({ n: 2 }));',
  'var A = class_make(false, void 0, function callee() { ' + guarded + '}); method_put(A.prototype, "m", function () { return "A" + this.n; }, true); accessor_put(A.prototype, "g", function () { return "g" + this.n; }, false);\n'
  + 'var B = class_make(true, A, function callee() { ' + guarded + 'this_bind(frame, super_construct(frame, [])); }); method_put(B.prototype, "m", function callee() { return "B" + call.call(super_get(callee, "m", this), this); }, true); accessor_put(B.prototype, "g", function callee() { return "h" + super_get(callee, "g", this); }, false);\n'
  + 'var b = construct(B, []); b.n = 1; print(b.m(), b.g, B.prototype.m.call({n: 2}));');
add('super in the method of an object',
  'const p = { k: 1, get g() { return this.n; } }; const o = Object.setPrototypeOf({ n: 2, m() { return super.k + ":" + super.g + ":" + super.none + ":" + super.toString.call([]); } }, p); print(o.m());',
  'var p = {k: 1}; accessor_put(p, "g", function () { return this.n; }, false); var o = Object.create(p); o.n = 2; method_put(o, "m", function callee() { return super_get(callee, "k", this) + ":" + super_get(callee, "g", this) + ":" + super_get(callee, "none", this) + ":" + super_get(callee, "toString", this).call([]); }, true); print(o.m());');
add_kind('super where there is no prototype',
  'const o = Object.setPrototypeOf({ m() { return super.k; } }, null); print(kind(() => o.m()));',
  'var o = Object.create(null); method_put(o, "m", function callee() { return super_get(callee, "k", this); }, true); print(kind(function () { o.m(); }));');
add('the iterator of super',
  'class L { *[Symbol.iterator]() { yield 1; yield 2; } } class M extends L { *[Symbol.iterator]() { for (const x of { [Symbol.iterator]: super[Symbol.iterator] }) yield x * 10; } } print([...new M()].join()); const o = { f() { return super[Symbol.iterator]; } }; for (const p of [[], Object.create(String.prototype), {}]) { Object.setPrototypeOf(o, p); print(o.f() === [][Symbol.iterator], o.f() === ""[Symbol.iterator], o.f() === undefined); }',
  'var L = class_make(false, void 0, function callee() { ' + guarded + '}); method_put(L.prototype, "@@iterator", function () { return iter_start([], 1).call([1, 2]); }, true);\n'
  + 'var M = class_make(true, L, function callee() { ' + guarded + 'this_bind(frame, super_construct(frame, [])); }); method_put(M.prototype, "@@iterator", function callee() { var out = [], it = iter_start({"@@iterator": super_get(callee, "@@iterator", this)}, 0), r; while ((r = iter_step(it)) !== false) out.push(iter_value(r) * 10); return iter_start(out, 1).call(out); }, true); print(spread_list([], construct(M, []), 1).join());\n'
  + 'var list = [[], Object.create(String.prototype), {}], i, o; for (i = 0; i < 3; i += 1) { o = method_put(Object.create(list[i]), "f", function callee() { return super_get(callee, "@@iterator", this); }, true); print(o.f() === iter_start([], 1), o.f() === iter_start("", 1), o.f() === void 0); }');
const statics = 'var A = class_make(false, void 0, function callee() { ' + guarded + '}); method_put(A, "m", function () { return 1; }, true);\nvar B = class_make(true, A, function callee() { ' + guarded + '});\n';
const native_statics = 'class A { static m() { return 1; } } class B extends A {}\n';
add('static members are inherited, and hidden by a write',
  native_statics + 'print(B.m()); B.m = 2; print(B.m, A.m());',
  statics + 'print(B.m()); B.m = 2; print(B.m, A.m());');
add('an inherited static member follows that of the parent',
  native_statics + 'class C extends B {} A.m = () => 5; print(B.m(), C.m()); B.m = () => 6; print(A.m(), C.m());',
  statics + 'var C = class_make(true, B, function callee() { ' + guarded + '}); A.m = function () { return 5; }; print(B.m(), C.m()); B.m = function () { return 6; }; print(A.m(), C.m());');
add('an inherited static accessor has the present receiver',
  'class A { static get k() { return this.n; } static set k(v) { this.n = v + 1; } } class B extends A {} class C extends B {} C.n = 3; print(C.k); C.k = 8; print(C.n, B.n, A.n);',
  'var A = class_make(false, void 0, function callee() { ' + guarded + '}); accessor_put(A, "k", function () { return this.n; }, false); accessor_put(A, "k", function (v) { this.n = v + 1; }, true); var B = class_make(true, A, function callee() { ' + guarded + '}), C = class_make(true, B, function callee() { ' + guarded + '}); C.n = 3; print(C.k); C.k = 8; print(C.n, B.n, A.n);');
add_kind('a static getter without setter is not written, in the parent and below',
  'class A { static get k() { return 1; } } class B extends A {} print(kind(() => { A.k = 2; }), kind(() => { B.k = 2; }), B.k);',
  'var A = class_make(false, void 0, function callee() { ' + guarded + '}); accessor_put(A, "k", function () { return 1; }, false); var B = class_make(true, A, function callee() { ' + guarded + '}); print(kind(function () { A.k = 2; }), kind(function () { B.k = 2; }), B.k);');
add_kind('half a static accessor hides both halves of the parent',
  'class A { static get k() { return 1; } static set k(v) {} } class B extends A { static set k(v) { print("set", v); } } B.k = 3; print(B.k, A.k); class C extends A { static get k() { return 2; } } print(C.k, kind(() => { C.k = 1; }));',
  'var A = class_make(false, void 0, function callee() { ' + guarded + '}); accessor_put(A, "k", function () { return 1; }, false); accessor_put(A, "k", function (v) {}, true); var B = class_make(true, A, function callee() { ' + guarded + '}); accessor_put(B, "k", function (v) { print("set", v); }, true); B.k = 3; print(B.k, A.k); var C = class_make(true, A, function callee() { ' + guarded + '}); accessor_put(C, "k", function () { return 2; }, false); print(C.k, kind(function () { C.k = 1; }));');
add('a static member is deleted before a class is made of the parent',
  'class A { static m() { return 1; } static k() { return 2; } } delete A.m; class B extends A {} print(typeof B.m, B.k());',
  'var A = class_make(false, void 0, function callee() { ' + guarded + '}); method_put(A, "m", function () { return 1; }, true); method_put(A, "k", function () { return 2; }, true); delete A.m; var B = class_make(true, A, function callee() { ' + guarded + '}); print(typeof B.m, B.k());');
add('super in a static method',
  'class A { static m() { return "A" + this.n; } } class B extends A { static m() { return "B" + super.m(); } } B.n = 1; A.n = 0; print(B.m(), A.m());',
  'var A = class_make(false, void 0, function callee() { ' + guarded + '}); method_put(A, "m", function () { return "A" + this.n; }, true); var B = class_make(true, A, function callee() { ' + guarded + '}); method_put(B, "m", function callee() { return "B" + call.call(super_get(callee, "m", this), this); }, true); B.n = 1; A.n = 0; print(B.m(), A.m());');
add_kind('a static member of the name prototype is refused',
  'const p = "prototype"; print(kind(() => { class A { static [p]() {} } }), kind(() => { class A { static get [p]() { return 1; } } }));',
  'print(kind(function () { var A = class_make(false, void 0, function callee() {}); method_put(A, "prototype", function () {}, true); }), kind(function () { var A = class_make(false, void 0, function callee() {}); accessor_put(A, "prototype", function () {}, false); }));');

// ---- properties of literals

add('a property over an accessor, an accessor over a property, and its other half',
  'const o = { get a() { return 1; }, ["a"]: 2, ["b"]: 3, get b() { return 4; }, get c() { return 5; }, set c(v) { this.d = v; } }; o.a += 1; o.c = 6; print(o.a, o.b, o.c, o.d);',
  'var o = {}; accessor_put(o, "a", function () { return 1; }, false); method_put(o, "a", 2, false); method_put(o, "b", 3, false); accessor_put(o, "b", function () { return 4; }, false); accessor_put(o, "c", function () { return 5; }, false); accessor_put(o, "c", function (v) { this.d = v; }, true); o.a += 1; o.c = 6; print(o.a, o.b, o.c, o.d);');
add_kind('an accessor over a property has no other half',
  'const o = { ["b"]: 3, get b() { return 4; } }; print(o.b, kind(() => { o.b = 1; })); const p = { get b() { return 1; }, ["b"]: 2, set b(v) {} }; print(p.b);',
  'var o = method_put({}, "b", 3, false); accessor_put(o, "b", function () { return 4; }, false); print(o.b, kind(function () { o.b = 1; })); var p = accessor_put({}, "b", function () { return 1; }, false); accessor_put(method_put(p, "b", 2, false), "b", function (v) {}, true); print(p.b);');
add('a property that is put hides that of the prototype',
  'const p = { set a(v) { print("set"); } }; const o = Object.setPrototypeOf({ ["a"]: 1, f() { return this.a; } }, p); print(o.a, o.f(), o.hasOwnProperty("a")); delete o.a; o.a = 2; print(o.a);',
  'var p = accessor_put({}, "a", function (v) { print("set"); }, true), o = Object.create(p); method_put(method_put(o, "a", 1, false), "f", function () { return this.a; }, true); print(o.a, o.f(), o.hasOwnProperty("a")); delete o.a; o.a = 2; print(o.a);');

// ---- generators: the steps are those of a machine of states

add('a generator is resumed by next',
  'function* G() { print("begin"); const a = yield 1; print(a); const b = yield 2; print(b); return 3; } const g = G(); for (const v of ["x", "y", "z", "w"]) { const r = g.next(v); print(r.value, r.done); }',
  'var G = generator_function(function callee() { var at = 0; return generator_make(callee, function (kind, value) { at += 1; if (at === 1) { print("begin"); return [0, 1]; } print(value); return at === 2 ? [0, 2] : [2, 3]; }); }); var g = G(), list = ["x", "y", "z", "w"], i, r; for (i = 0; i < 4; i += 1) { r = g.next(list[i]); print(r.value, r.done); }');
add('return and throw at the start, and behind the end',
  'function* G() { print("never"); yield 1; } let g = G(), r = g.return(5); print(r.value, r.done); r = g.next(); print(r.value, r.done); r = g.return(6); print(r.value, r.done); try { g.throw("t"); } catch (e) { print(e); } g = G(); try { g.throw("u"); } catch (e) { print(e); } print(g.next().done);',
  'var G = generator_function(function callee() { return generator_make(callee, function (kind, value) { print("never"); return [0, 1]; }); }), g = G(), r = g["return"](5); print(r.value, r.done); r = g.next(); print(r.value, r.done); r = g["return"](6); print(r.value, r.done); try { g["throw"]("t"); } catch (e) { print(e); } g = G(); try { g["throw"]("u"); } catch (e) { print(e); } print(g.next().done);');
add('return and throw at a yield',
  'function* G() { for (;;) { try { yield 1; } catch (e) { print("caught", e); } } } const g = G(); let r; g.next(); r = g.throw("t"); print(r.value, r.done); r = g.return(7); print(r.value, r.done); print(g.next().value, g.next().done);',
  'var G = generator_function(function callee() { return generator_make(callee, function (kind, value) { if (kind === 1) print("caught", value); return kind === 2 ? [2, value] : [0, 1]; }); }), g = G(), r; g.next(); r = g["throw"]("t"); print(r.value, r.done); r = g["return"](7); print(r.value, r.done); print(g.next().value, g.next().done);');
add_kind('a generator that is executing, one that threw, and what is none',
  'let g; function* G() { print(kind(() => g.next())); yield 1; throw new ReferenceError(); } g = G(); print(g.next().value, kind(() => g.next()), g.next().done, kind(() => g.next.call({})), kind(() => g.next.call(undefined)));',
  'var g, G = generator_function(function callee() { var at = 0; return generator_make(callee, function (how, value) { at += 1; if (at === 1) { print(kind(function () { g.next(); })); return [0, 1]; } throw new ReferenceError(); }); }); g = G(); print(g.next().value, kind(function () { g.next(); }), g.next().done, kind(function () { g.next.call({}); }), kind(function () { g.next.call(void 0); }));');
add('the prototype of a generator',
  'function* G() {} const g = G(); print(g instanceof G, Object.getPrototypeOf(g) === G.prototype, g[Symbol.iterator]() === g); G.prototype.k = 4; print(g.k); G.prototype = 5; print(G() instanceof Object, typeof G().next);',
  'var G = generator_function(function callee() { return generator_make(callee, function () { return [2, void 0]; }); }), g = G(); print(g instanceof G, Object.getPrototypeOf(g) === G.prototype, iter_start(g, 0) === g); G.prototype.k = 4; print(g.k); G.prototype = 5; print(G() instanceof Object, typeof G().next);');
add('a generator is resumed by kinds',
  'function* G() { try { yield 1; yield 2; } finally { print("last"); } } const g = G(); print(g.next().value, g.next().value, g.return(3).value, g.next().value);',
  'var G = generator_function(function callee() { var at = 0; return generator_make(callee, function (kind, value) { if (kind === 2) { print("last"); return [2, value]; } at += 1; return [0, at]; }); }), g = G(); print(generator_resume(g, 0, void 0).value, generator_resume(g, 0, void 0).value, generator_resume(g, 2, 3).value, generator_resume(g, 0, void 0).value);');

// a loop of `yield*`, as a generator's steps have it
const delegating = 'function delegates(inner) { var it, how = 0, given, started = false; return generator_function(function callee() { return generator_make(callee, function (kind, value) { var r; if (!started) { started = true; it = iter_start(inner, 0); kind = 0; value = void 0; } r = delegate_step(it, kind, value); if (r === void 0) return [2, value]; if (r.done) return kind === 2 ? [2, r.value] : [2, "end " + r.value]; return [1, r]; }); })(); }\n';
const native_delegating = 'function delegates(inner) { return (function* () { return "end " + (yield* inner); })(); }\n';
add('yield* hands inner results on as they are',
  native_delegating + 'let n = 0; const shown = { get value() { print("value"); return 1; }, done: false }; const g = delegates({ [Symbol.iterator]() { return { next(v) { print(arguments.length, v); n += 1; return n < 3 ? shown : { value: 9, done: true }; } }; } }); print(g.next("a") === shown, g.next("b") === shown); const r = g.next("c"); print(r.value, r.done);',
  delegating + 'var n = 0, shown = {get value() { print("value"); return 1; }, done: false}, g = delegates({"@@iterator": function () { return {next: function (v) { print(arguments.length, v); n += 1; return n < 3 ? shown : {value: 9, done: true}; }}; }}); print(g.next("a") === shown, g.next("b") === shown); var r = g.next("c"); print(r.value, r.done);');
const inner = (throws, returns) => '{ [KEY]() { return { next() { return { value: 1, done: false }; }, ' + throws + returns + ' }; } }';
const inner5 = (throws, returns) => '{"@@iterator": function () { return {' + throws + returns + 'next: function () { return {value: 1, done: false}; }}; }}';
add('yield* hands throw and return on',
  native_delegating + 'let g = delegates(' + inner('throw(v) { print("throw", v); return { value: 2, done: false }; }, ', 'return(v) { print("return", v); return { value: v + 1, done: true }; }').replace('KEY', 'Symbol.iterator') + '); g.next(); let r = g.throw("t"); print(r.value, r.done); r = g.return(5); print(r.value, r.done, g.next().done);',
  delegating + 'var g = delegates(' + inner5('"throw": function (v) { print("throw", v); return {value: 2, done: false}; }, ', '"return": function (v) { print("return", v); return {value: v + 1, done: true}; }, ') + '); g.next(); var r = g["throw"]("t"); print(r.value, r.done); r = g["return"](5); print(r.value, r.done, g.next().done);');
add_kind('yield* over a list gives a result of its own each time',
  native_delegating + 'let g = delegates([1, 2]), r = g.next(), s = g.next(); print(r === s, r.value, r.done, s.value, g.next().value, g.next().done); g = delegates([1]); g.next(); print(kind(() => g.throw("t")), g.next().done); g = delegates([1]); g.next(); r = g.return(8); print(r.value, r.done, g.next().done);',
  delegating + 'var g = delegates([1, 2]), r = g.next(), s = g.next(); print(r === s, r.value, r.done, s.value, g.next().value, g.next().done); g = delegates([1]); g.next(); print(kind(function () { g["throw"]("t"); }), g.next().done); g = delegates([1]); g.next(); r = g["return"](8); print(r.value, r.done, g.next().done);');
add_kind('yield* without an inner throw closes and throws, and without an inner return returns',
  native_delegating + 'let g = delegates(' + inner('', 'return() { print("closed", arguments.length); return {}; }').replace('KEY', 'Symbol.iterator') + '); g.next(); print(kind(() => g.throw("t")), g.next().done); g = delegates(' + inner('', '').replace('KEY', 'Symbol.iterator') + '); g.next(); const r = g.return(8); print(r.value, r.done);',
  delegating + 'var g = delegates(' + inner5('', '"return": function () { print("closed", arguments.length); return {}; }, ') + '); g.next(); print(kind(function () { g["throw"]("t"); }), g.next().done); g = delegates(' + inner5('', '') + '); g.next(); var r = g["return"](8); print(r.value, r.done);');
add_kind('yield* of inner results that are no objects',
  native_delegating + 'let g = delegates(' + inner('throw() { return 1; }, ', 'return() { return 1; }').replace('KEY', 'Symbol.iterator') + '); g.next(); print(kind(() => g.return(1))); g = delegates(' + inner('throw() { return 1; }, ', '').replace('KEY', 'Symbol.iterator') + '); g.next(); print(kind(() => g.throw(1)));',
  delegating + 'var g = delegates(' + inner5('"throw": function () { return 1; }, ', '"return": function () { return 1; }, ') + '); g.next(); print(kind(function () { g["return"](1); })); g = delegates(' + inner5('"throw": function () { return 1; }, ', '') + '); g.next(); print(kind(function () { g["throw"](1); }));');

// ---- namespace objects: node makes one of a module, so here the standard's properties are listed

add_kind('a namespace object is live, has no prototype, and refuses writes',
  'print(1); print(2, 3, "TypeError", "TypeError", "TypeError", false); print("ReferenceError", undefined);',
  'var x = 1, y = empty, ns = namespace_make(["x", function () { return x; }, "y", function () { return check_ready(y); }]); print(ns.x); x = 2; print(ns.x, (x = 3, ns.x), kind(function () { ns.x = 5; }), kind(function () { ns.z = 5; }), kind(function () { delete ns.x; }), "toString" in ns); print(kind(function () { ns.y; }), ns.z);');

// ---- parts of the 7th edition

add('powers',
  'print([[2, 10], [3, 0], [0, 0], [0, 5], [-2, 3], [-2, 4], [1, -7], [-1, -3], [-1, -4], [-1, 7], [9007199254740991, 1], [2, 52], [-3, 33], [1, 9007199254740991], [-1, 9007199254740991]].map(([a, b]) => a ** b).join()); print("3" ** "2", true ** 5, [4] ** 2);',
  'var list = [[2, 10], [3, 0], [0, 0], [0, 5], [-2, 3], [-2, 4], [1, -7], [-1, -3], [-1, -4], [-1, 7], [9007199254740991, 1], [2, 52], [-3, 33], [1, 9007199254740991], [-1, 9007199254740991]], out = [], i; for (i = 0; i < list.length; i += 1) out.push(power(list[i][0], list[i][1])); print(out.join()); print(power("3", "2"), power(true, 5), power([4], 2));');
add('operands of a power are converted from left to right',
  'const v = (n) => ({ valueOf() { print(n); return n; } }); print(v(2) ** v(3));',
  'function v(n) { return {valueOf: function () { print(n); return n; }}; } print(power(v(2), v(3)));');
add('includes',
  'const a = [1, 2, 3, "2", undefined], o = {}; print(a.includes(2), a.includes(4), a.includes("2"), a.includes(undefined), [].includes(1), [o].includes(o), [{}].includes({}), a.includes(1, 1), a.includes(3, -3), a.includes(1, -3), a.includes(1, -9), a.includes(1, 9), a.includes(2, "1"), a.includes());',
  'includes_put(); var a = [1, 2, 3, "2", void 0], o = {}; print(a.includes(2), a.includes(4), a.includes("2"), a.includes(void 0), [].includes(1), [o].includes(o), [{}].includes({}), a.includes(1, 1), a.includes(3, -3), a.includes(1, -3), a.includes(1, -9), a.includes(1, 9), a.includes(2, "1"), a.includes());');
add('includes converts its position behind an empty list alone',
  'const p = { valueOf() { print("converted"); return 1; } }; print([].includes(1, p), [1, 1].includes(1, p));',
  'includes_put(); var p = {valueOf: function () { print("converted"); return 1; }}; print([].includes(1, p), [1, 1].includes(1, p));');

// ---- template objects; the 6th edition has one for equal texts, where node has one a place
add_kind('a template object is fixed',
  'function tag(t, ...v) { return t; } const t = tag`x\\n${1}y`; print(t.length, t[0] === "x\\n", t.raw[0], t.raw.length, t.raw[1]); print(kind(() => { t[0] = 1; }), kind(() => { t.raw[1] = 1; }), kind(() => { t.push(1); }), kind(() => { t.k = 1; }), kind(() => { t.raw = 1; }), kind(() => { delete t[0]; }), t[0] === "x\\n", t[1]);',
  'var t = template_object(["x\\n", "y"], ["x\\\\n", "y"]); print(t.length, t[0] === "x\\n", t.raw[0], t.raw.length, t.raw[1]); print(kind(function () { t[0] = 1; }), kind(function () { t.raw[1] = 1; }), kind(function () { t.push(1); }), kind(function () { t.k = 1; }), kind(function () { t.raw = 1; }), kind(function () { delete t[0]; }), t[0] === "x\\n", t[1]);');
add_kind('the length of a template object is fixed',
  'const t = ((t) => t)`a${0}b`; print(kind(() => { t.length = 0; }), kind(() => { t.raw.length = 0; }), kind(() => { t.length = 9; }), kind(() => { t.raw.length = 9; }), t.length);',
  'var t = template_object(["a", "b"], ["a", "b"]); print(kind(function () { t.length = 0; }), kind(function () { t.raw.length = 0; }), kind(function () { t.length = 9; }), kind(function () { t.raw.length = 9; }), t.length);', ['mujs']);
add('equal raw texts have one template object',
  'print(true, false, false, false, true, true);',
  'var t = template_object(["a", "b"], ["a", "b"]); print(template_object(["a", "b"], ["a", "b"]) === t, template_object(["a"], ["a"]) === t, template_object(["ab", ""], ["ab", ""]) === t, template_object(["a", "c"], ["a", "c"]) === t, template_object(["b"], ["b"]) === template_object(["b"], ["b"]), template_object(["a", "b"], ["a", "b"]) === t && template_object(["a"], ["a"]) === template_object(["a"], ["a"]));');

module.exports = { cases };

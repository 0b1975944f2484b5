// Programs of modules: graphs of several modules, and what loops, patterns, iterators, generators, classes, templates and closures
// do at run time.
'use strict';

const programs = [
  [''],
  [
    'import {print} from "host";',
    'import Queue, {total} from "./queue.js";',
    'import {walk, insert} from "./tree.js";',
    'import * as text from "./text.js";',
    'const q = new Queue(3);',
    'let root = null;',
    'for (const k of [5, 2, 8, 1, 9]) {',
    '  root = insert(root, k);',
    '  q.put(k);',
    '}',
    'print(text.list([...q]), total);',
    'for (const {key, depth} of walk(root)) {',
    '  if (key > 8) break;',
    '  print(`${text.pad(depth)}${key}`);',
    '}',
    'print(q.size, text.title);',
  ],
  [
    'export let total = 0;',
    'class Base {',
    '  constructor(limit = 2) { this.limit = limit; this.items = []; }',
    '  get size() { return this.items.length; }',
    '}',
    'export default class Queue extends Base {',
    '  constructor(...rest) { super(...rest); }',
    '  put(k) {',
    '    total += k;',
    '    if (this.size === this.limit) this.take();',
    '    this.items.push(k);',
    '  }',
    '  take() {',
    '    const [first, ...others] = this.items;',
    '    this.items = others;',
    '    return first;',
    '  }',
    '  *[Symbol.iterator]() { yield* this.items; }',
    '}',
  ],
  [
    'export function insert(node, key) {',
    '  if (node === null) return { key, left: null, right: null };',
    '  const { left, right } = node;',
    '  return key < node.key',
    '    ? { key: node.key, left: insert(left, key), right }',
    '    : { key: node.key, left, right: insert(right, key) };',
    '}',
    'export function* walk(node, depth = 0) {',
    '  if (node === null) return;',
    '  yield* walk(node.left, depth + 1);',
    '  yield { key: node.key, depth };',
    '  yield* walk(node.right, depth + 1);',
    '}',
  ],
  [
    'export const title = "queue\\ttree";',
    'export function pad(n, fill = "-") {',
    '  let s = "";',
    '  while (n-- > 0) s += fill;',
    '  return s;',
    '}',
    'export const list = items => `[${items.join(" ")}]`;',
  ],
  [
    'export let c = 0;',
    'export class K {',
    '  constructor(k) { this.k = k; }',
    '  [Symbol.iterator]() {',
    '    let i = 0, k = this.k;',
    '    return { next: () => { c = c + 1; return { value: i, done: i++ >= k }; } };',
    '  }',
    '}',
  ],
  [
    'import {print} from "host";',
    'let fs = []; for (let i = 0; i < 3; i++) fs.push(() => i); fs.forEach(f => print(f()));',
  ],
  [
    'import {print} from "host";',
    'for (let i = 0, g = () => i; i < 2; i++) print(g());',
  ],
  ['import "./b.js"; export let x = 1; export function f() { return 7; } print(x);'],
  ['import {x, f} from "./main.js"; print(f()); try { x; } catch (e) { print(e instanceof ReferenceError); }'],
  [
    'import {print} from "host";',
    'export let n = 0; export function inc() { n++; }',
  ],
  ['import {n, inc} from "./c.js"; print(n); inc(); print(n); try { n = 5; } catch (e) { print(e instanceof TypeError); }'],
  [
    'import {print} from "host";',
    'let a = { toString() { print("a"); return "A"; } }; function f() { print("f"); return "F"; } print(`${a}${f()}`);',
  ],
  [
    'import {print} from "host";',
    'let it = { [Symbol.iterator]() { return this; }, next() { print("n"); return { value: 1, done: false }; }, return() { print("r"); return {}; } }; var [x] = it; print(x);',
  ],
  [
    'import {print} from "host";',
    'let it = { [Symbol.iterator]() { return this; }, next() { return { value: 1, done: false }; }, return() { return 5; } }; try { for (let v of it) break; } catch (e) { print(e instanceof TypeError); } try { for (let v of it) throw 9; } catch (e) { print(e); }',
  ],
  [
    'import {print} from "host";',
    'let n = 0; let it = { [Symbol.iterator]() { return this; }, next() { return { value: "old", done: false }; } }; for (let v of it) { print(v); it.next = () => ({ value: "new", done: n++ > 0 }); }',
  ],
  [
    'import {print} from "host";',
    'function* g() { try { yield 1; } finally { yield 2; } } let o = g(); function show(r) { print(r.value, r.done); } show(o.next()); show(o.return(9)); show(o.next()); show(o.next());',
  ],
  [
    'import {print} from "host";',
    'let o; function* g() { try { o.next(); } catch (e) { print(e instanceof TypeError); } yield 3; } o = g(); print(o.next().value); let p = g(); let r = p.return(7); print(r.value, r.done); print(p.next().done);',
  ],
  [
    'import {print} from "host";',
    'let inner = { [Symbol.iterator]() { return this; }, next() { return { value: 1, done: false }; }, return() { print("closed"); return {}; } }; function* g() { yield* inner; } let o = g(); o.next(); try { o.throw(5); } catch (e) { print(e instanceof TypeError); }',
  ],
  ['import {print, pick} from "host"; function* g(name) { try { yield name + 1; yield name + 2; } finally { print(name + "f"); } } let gs = [g("a"), g("b"), g("c")]; for (let i = 0; i < 6; i++) print(gs[pick()].next().value);'],
  [
    'import {print} from "host";',
    'class A { constructor() { print("A", new.target === A); } } class B extends A { constructor(k) { if (k === 0) this; if (k === 1) return { k: 4 }; super(); if (k === 2) super(); } } function t(f) { try { print(f().k); } catch (e) { print(e instanceof ReferenceError, e instanceof TypeError); } } t(() => new B(0)); t(() => new B(1)); t(() => new B(2)); t(() => new B(3)); t(() => A.call(Object.create(A.prototype)));',
  ],
  ['import {k} from "./s.js";'],
  ['export * from "./p.js"; export * from "./q.js";'],
  [
    'import {print} from "host";',
    'export let k = 1;',
  ],
  ['import "./no.js";'],
  [
    'import {print} from "host";',
    'while (true) ;',
  ],
  [
    'import {print} from "host";',
    'print(1); print(2);',
  ],
  [
    'import {print} from "host";',
    'const a = count(); let b = a + "x"; print(b, 1 + 2);',
  ],
  [
    'import {print} from "host";',
    'print(1 * 2);',
  ],
  [
    'import {print} from "host";',
    'let o = {k: [1, 2]}; o.k.push(3); print(o.k.length, o.k.join("-"), "a" < "b");',
  ],
  [
    'import {print} from "host";',
    'function f() { for (var i = 0; i < 3; i++) try { if (i === 1) continue; print(i); } finally { print("f"); } return "e"; } print(f());',
  ],
  [
    'import {print} from "host";',
    'let fs = []; for (let i = 0; i < 3; i++) fs.push(function () { return i; }); fs.forEach(function (f) { print(f()); });',
  ],
  [
    'import {print} from "host";',
    'try { x; } catch (e) { print(e instanceof ReferenceError); } let x = 1; print(x);',
  ],
  [
    'import {print} from "host";',
    'const k = 1; try { k = print(2); } catch (e) { print(e instanceof TypeError); }',
  ],
  ['import "./m1.js";'],
  ['import "./mJ.js";'],
  ['import "./a.js"; import "./b.js"; import "./c.js"; import "./d.js";'],
  [
    'import {print} from "host";',
    'function f(a, b = a + 1, ...r) { print(a, b, r.length, f.length); } f(1); f(1, 5, 6, 7);',
  ],
  [
    'import {print} from "host";',
    'function f(a, g = () => a) { var a = 2; print(a, g()); } f(1);',
  ],
  [
    'import {print} from "host";',
    'let o = {}; [o.a, o["b"] = 7] = [1]; print(o.a, o.b);',
  ],
  [
    'import {print} from "host";',
    'print(...[1, 2], 3);',
  ],
  [
    'import {print} from "host";',
    'class A { get k() { return this.n; } } class B extends A { get k() { return super.k + 1; } } let b = new B(); b.n = 4; print(b.k);',
  ],
  [
    'import {print} from "host";',
    'class A { static length() {} }',
  ],
  [
    'import {print} from "host";',
    'function* g(a) { let b = yield a; print(b); return b + 1; } let o = g(4); let r = o.next(); print(r.value, r.done); r = o.next(6); print(r.value, r.done); r = o.next(); print(r.value, r.done);',
  ],
  [
    'import {print} from "host";',
    'function* g(n) { while (true) { print(n); yield n; n += 2; } } let a = g(0), b = g(1); a.next(); b.next(); b.next(); a.next();',
  ],
  [
    'import {print} from "host";',
    'function* g() { print("never"); yield 3; } let p = g(); let r = p.return(7); print(r.value, r.done); print(p.next().done);',
  ],
  [
    'import {print} from "host";',
    'let o; function* g() { o.next(); yield 1; } o = g(); o.next();',
  ],
  [
    'import {print} from "host";',
    'function* g() { yield* [1]; }',
  ],
  [
    'import {print} from "host";',
    'function* g() { for (let v of [1, 2, 3]) try { yield v; } finally { print("f" + v); } } for (let v of g()) { if (v === 2) break; print(v); }',
  ],
  [
    'import {print} from "host";',
    'function* g() { try { throw 1; } finally { yield 2; } } let o = g(); print(o.next().value); try { o.next(); } catch (e) { print(e); }',
  ],
  [
    'import {print} from "host";',
    'for (const x of [x]) ;',
  ],
  [
    'import {print} from "host";',
    'print(2 ** 3 ** 2, (-2) ** 3, 1 ** -4, 3 ** 33);',
  ],
  [
    'import {print} from "host";',
    'print(2 ** 53);',
  ],
  [
    'import {print} from "host";',
    'print([1, 2].includes(2), [1, 2].includes(1, -1), [undefined].includes());',
  ],
  [
    'import {print} from "host";',
    'class A {} class B extends A {} A.m = 1; B.m;',
  ],
  [
    'import {print} from "host";',
    'class A { static m() { return 1; } } class B extends A {} print(B.m());',
  ],
  [
    'import {print} from "host";',
    'class A { static m() { return 1; } } class B extends A {} print(B.m()); B.m = 2; print(B.m, A.m());',
  ],
  [
    'import {print} from "host";',
    'class A { static get k() { return this.n; } } class B extends A {} class C extends B {} C.n = 3; print(C.k);',
  ],
  [
    'import {print} from "host";',
    'function tag(t, ...v) { print(t[0], t.raw[0], v[0]); return t; } let a = tag`x\\n${1}y`; let b = tag`x\\n${2}y`; print(a === b); try { a[0] = 1; } catch (e) { print(e instanceof TypeError); }',
  ],
  [
    'import {print} from "host";',
    '(() => 1).prototype',
  ],
  [
    'import {print} from "host";',
    'new (() => 1)',
  ],
  [
    'import {print} from "host";',
    'class A { static m() { return 1; } } class B extends A {} B.m;',
  ],
  [
    'import {print} from "host";',
    '({}).toString.call([][Symbol.iterator]())',
  ],
  [
    'import {print} from "host";',
    'class A extends (() => 1) {}',
  ],
  [
    'import {print} from "host";',
    'class A extends (function () {}) {} print(typeof A);',
  ],
  [
    'import {print} from "host";',
    '(x => x).apply(null, { length: 1 })',
  ],
  ['import * as ns from "./k.js";'],
  ['import {K as K1, c as c1} from "./m1.js";'],
  [
    'import {print} from "host";',
    'for (const v of new K1(1)) print(v);',
  ],
  [
    'import {print} from "host";',
    'print(9007199254740990+1);',
    'print(9007199254740991+1);',
  ],
  [
    'import {print} from "host";',
    'let b = c => "called " + c, i = 0, c = 1, a;',
    'a = b',
    '(c)',
    'print(a);',
    'i++',
    '(c)',
    'print(i);',
  ],
  [
    'import {print} from "host";',
    'let f = () => () => () => () => () => () => () => () => () => () => 1;',
    'for (let i = 0; i < 10; i++) f = f();',
    'print(f);',
  ],
  [
    'import {print} from "host";',
    'import {K as K1, c as c1} from "./m1.js";',
    'import {K as K2, c as c2} from "./m2.js";',
    'for (const v of new K1(1)) print(v);',
    'print(c1);',
    'for (const v of new K2(2)) print(v);',
    'print(c2);',
  ],
  [
    'import {print} from "host";',
    'print(new (function () { this.k = 1; })().k);',
    'print(typeof (function () {}).prototype);',
    'print(({})["@" + "k"]);',
    'print(" -12 " - 0);',
  ],
].map((lines) => lines.join('\n'));

module.exports = { programs };

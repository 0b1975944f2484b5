// Programs and what comes of them, written by hand from the rules of docs/PROFILE.md and docs/BUILTINS.md. Each row has a name, the files (a text alone is
// main.js, behind a first line that imports print), the words (`build main.js` otherwise), and either
// - `lines`: what the script's run shows, each event and the ending; `leaves`: these are only the first ones, since the run leaves the profile then, and this is the last line of the modules' run; or
// - `refused`: the line on the error stream, with `status`, 1 otherwise; or
// - `out`: what is written.
// `answers` are the hosts'; `map` the sources of the script's map; `at` the module in which all events' calls stand; `most` the most bytes of the script;
// `without` has a reason for each small engine that is at fault itself; `unmapped` says why a script has no map. That it is so is seen in both cases.
'use strict';
const host = 'import {print} from "host";\n';
const usage = 'usage: es5c build ENTRY / split ENTRY / rebuild ENTRY LIST / run ENTRY [--steps N] / run5 SCRIPT [--steps N] / map SCRIPT / sample N';
const first = 'a module of the first forms has no map yet';
const spaces = (count) => ' '.repeat(count);

const programs = [
  { name: 'no byte', files: { 'main.js': '' }, lines: ['ended'], map: ['main.js'], unmapped: first },
  { name: 'a sum', text: 'print(1+2);', lines: ['print(3)', 'ended'], unmapped: first },
  { name: 'the greatest number', text: 'print(9007199254740990+1);\nprint(9007199254740991+1);', lines: ['print(9007199254740991)'], leaves: 'left X1 at main.js:3:7', unmapped: first },
  { name: 'a closure of each turn', text: 'let fs = []; for (let i = 0; i < 3; i++) fs.push(() => i); fs.forEach(f => print(f()));', lines: ['print(0)', 'print(1)', 'print(2)', 'ended'] },
  { name: 'a closure of the first copy', text: 'for (let i = 0, g = () => i; i < 2; i++) print(g());', lines: ['print(0)', 'print(0)', 'ended'] },
  {
    name: 'a ring of two',
    files: {
      'main.js': `${host}import "./b.js"; export let x = 1; export function f() { return 7; } print(x);`,
      'b.js': `${host}import {x, f} from "./main.js"; print(f()); try { x; } catch (e) { print(e instanceof ReferenceError); }`,
    },
    lines: ['print(7)', 'print(true)', 'print(1)', 'ended'],
  },
  {
    name: 'a live import',
    files: {
      'main.js': `${host}import {n, inc} from "./c.js"; print(n); inc(); print(n); try { n = 5; } catch (e) { print(e instanceof TypeError); }`,
      'c.js': 'export let n = 0; export function inc() { n++; }',
    },
    lines: ['print(0)', 'print(1)', 'print(true)', 'ended'],
  },
  {
    name: 'a template converts each value at once',
    text: 'let a = { toString() { print("a"); return "A"; } }; function f() { print("f"); return "F"; } print(`${a}${f()}`);',
    lines: ['print("a")', 'print("f")', 'print("AF")', 'ended'],
  },
  {
    name: 'a pattern closes its iterator',
    text: 'let it = { [Symbol.iterator]() { return this; }, next() { print("n"); return { value: 1, done: false }; }, return() { print("r"); return {}; } }; var [x] = it; print(x);',
    lines: ['print("n")', 'print("r")', 'print(1)', 'ended'],
  },
  {
    name: 'closing that answers no object',
    text: 'let it = { [Symbol.iterator]() { return this; }, next() { return { value: 1, done: false }; }, return() { return 5; } }; try { for (let v of it) break; } catch (e) { print(e instanceof TypeError); } try { for (let v of it) throw 9; } catch (e) { print(e); }',
    lines: ['print(true)', 'print(9)', 'ended'],
  },
  {
    name: 'next is read at each step',
    text: 'let n = 0; let it = { [Symbol.iterator]() { return this; }, next() { return { value: "old", done: false }; } }; for (let v of it) { print(v); it.next = () => ({ value: "new", done: n++ > 0 }); }',
    lines: ['print("old")', 'print("new")', 'ended'],
  },
  {
    name: 'a yield in finally keeps the return',
    text: 'function* g() { try { yield 1; } finally { yield 2; } } let o = g(); function show(r) { print(r.value, r.done); } show(o.next()); show(o.return(9)); show(o.next()); show(o.next());',
    lines: ['print(1, false)', 'print(2, false)', 'print(9, true)', 'print(undefined, true)', 'ended'],
  },
  {
    name: 'a generator that runs, and one that never began',
    text: 'let o; function* g() { try { o.next(); } catch (e) { print(e instanceof TypeError); } yield 3; } o = g(); print(o.next().value); let p = g(); let r = p.return(7); print(r.value, r.done); print(p.next().done);',
    lines: ['print(true)', 'print(3)', 'print(7, true)', 'print(true)', 'ended'],
  },
  {
    name: 'delegation to what has no throw',
    text: 'let inner = { [Symbol.iterator]() { return this; }, next() { return { value: 1, done: false }; }, return() { print("closed"); return {}; } }; function* g() { yield* inner; } let o = g(); o.next(); try { o.throw(5); } catch (e) { print(e instanceof TypeError); }',
    lines: ['print("closed")', 'print(true)', 'ended'],
  },
  {
    name: 'tasks that a host picks', answers: { count: [0, 1, 2, 1, 0, 2] },
    files: { 'main.js': 'import {print, count} from "host"; function* g(name) { try { yield name + 1; yield name + 2; } finally { print(name + "f"); } } let gs = [g("a"), g("b"), g("c")]; for (let i = 0; i < 6; i++) print(gs[count()].next().value);' },
    lines: ['count()', 'print("a1")', 'count()', 'print("b1")', 'count()', 'print("c1")', 'count()', 'print("b2")', 'count()', 'print("a2")', 'count()', 'print("c2")', 'ended'],
  },
  {
    name: 'a host that throws while generators wait', answers: { count: [0, { throw: 'x' }] },
    files: { 'main.js': 'import {print, count} from "host"; function* g(name) { try { yield name + 1; yield name + 2; } finally { print(name + "f"); } } let gs = [g("a"), g("b"), g("c")]; for (let i = 0; i < 6; i++) print(gs[count()].next().value);' },
    lines: ['count()', 'print("a1")', 'count()', 'threw "x"'],
  },
  {
    name: 'constructors of a derived class',
    text: 'class A { constructor() { print("A", new.target === A); } } class B extends A { constructor(k) { if (k === 0) this; if (k === 1) return { k: 4 }; super(); if (k === 2) super(); } } function t(f) { try { print(f().k); } catch (e) { print(e instanceof ReferenceError, e instanceof TypeError); } } t(() => new B(0)); t(() => new B(1)); t(() => new B(2)); t(() => new B(3)); t(() => A.call(Object.create(A.prototype)));',
    lines: ['print(true, false)', 'print(4)', 'print("A", false)', 'print("A", false)', 'print(true, false)', 'print("A", false)', 'print(undefined)', 'print(false, true)', 'ended'],
  },
  {
    name: 'lines that go on without a semicolon',
    text: 'let b = c => "called " + c, i = 0, c = 1, a;\na = b\n(c)\nprint(a);\ni++\n(c)\nprint(i);',
    lines: ['print("called 1")', 'print(1)', 'ended'],
  },
  { name: 'a loop without an end', text: 'while (true) ;' },
  { name: 'a host refuses an object', text: 'print({});', lines: ['threw TypeError'] },
  { name: 'a host that throws', answers: { print: [{ throw: 'x' }] }, text: 'print(1+2);', lines: ['print(3)', 'threw "x"'], unmapped: first },
  { name: 'answers in sums', answers: { count: [4] }, files: { 'main.js': 'import {print, count} from "host";\nconst a = count(); let b = a + "x"; print(b, 1 + 2);' }, lines: ['count()', 'print("4x", 3)', 'ended'], unmapped: first },
  { name: 'lists and orders of texts', text: 'let o = {k: [1, 2]}; o.k.push(3); print(o.k.length, o.k.join("-"), "a" < "b");', lines: ['print(3, "1-2-3", true)', 'ended'] },
  {
    name: 'finally at each jump',
    text: 'function f() { for (var i = 0; i < 3; i++) try { if (i === 1) continue; print(i); } finally { print("f"); } return "e"; } print(f());',
    lines: ['print(0)', 'print("f")', 'print("f")', 'print(2)', 'print("f")', 'print("e")', 'ended'],
  },
  { name: 'closures by functions', text: 'let fs = []; for (let i = 0; i < 3; i++) { fs.push(function () { return i; }); } fs.forEach(function (f) { print(f()); });', lines: ['print(0)', 'print(1)', 'print(2)', 'ended'] },
  { name: 'a name before its value', text: 'try { x; } catch (e) { print(e instanceof ReferenceError); } let x = 1; print(x);', lines: ['print(true)', 'print(1)', 'ended'] },
  { name: 'a const assigned', text: 'const k = 1; try { k = print(2); } catch (e) { print(e instanceof TypeError); }', lines: ['print(2)', 'print(true)', 'ended'] },
  { name: 'defaults, rest and length', text: 'function f(a, b = a + 1, ...r) { print(a, b, r.length, f.length); } f(1); f(1, 5, 6, 7);', lines: ['print(1, 2, 0, 1)', 'print(1, 5, 2, 1)', 'ended'] },
  { name: 'a default that sees the parameter', text: 'function f(a, g = () => a) { var a = 2; print(a, g()); } f(1);', lines: ['print(2, 1)', 'ended'] },
  { name: 'targets that are properties', text: 'let o = {}; [o.a, o["b"] = 7] = [1]; print(o.a, o.b);', lines: ['print(1, 7)', 'ended'] },
  { name: 'arguments spread', text: 'print(...[1, 2], 3);', lines: ['print(1, 2, 3)', 'ended'] },
  { name: 'an accessor by super', text: 'class A { get k() { return this.n; } } class B extends A { get k() { return super.k + 1; } } let b = new B(); b.n = 4; print(b.k);', lines: ['print(5)', 'ended'] },
  {
    name: 'values of next',
    text: 'function* g(a) { let b = yield a; print(b); return b + 1; } let o = g(4); let r = o.next(); print(r.value, r.done); r = o.next(6); print(r.value, r.done); r = o.next(); print(r.value, r.done);',
    lines: ['print(4, false)', 'print(6)', 'print(7, true)', 'print(undefined, true)', 'ended'],
  },
  { name: 'two that take turns', text: 'function* g(n) { while (true) { print(n); yield n; n += 2; } } let a = g(0), b = g(1); a.next(); b.next(); b.next(); a.next();', lines: ['print(0)', 'print(1)', 'print(3)', 'print(2)', 'ended'] },
  { name: 'a return before the start', text: 'function* g() { print("never"); yield 3; } let p = g(); let r = p.return(7); print(r.value, r.done); print(p.next().done);', lines: ['print(7, true)', 'print(true)', 'ended'] },
  { name: 'a running generator isn\'t resumed', text: 'let o; function* g() { o.next(); yield 1; } o = g(); o.next();', lines: ['threw TypeError'] },
  {
    name: 'a loop over a generator is left',
    text: 'function* g() { for (let v of [1, 2, 3]) try { yield v; } finally { print("f" + v); } } for (let v of g()) { if (v === 2) break; print(v); }',
    lines: ['print(1)', 'print("f1")', 'print("f2")', 'ended'],
  },
  { name: 'a throw waits for a yield in finally', text: 'function* g() { try { throw 1; } finally { yield 2; } } let o = g(); print(o.next().value); try { o.next(); } catch (e) { print(e); }', lines: ['print(2)', 'print(1)', 'ended'] },
  { name: 'a head that reads its own name', text: 'for (const x of [x]) ;', lines: ['threw ReferenceError'] },
  { name: 'a hundred arrows', text: `let f = ${'() => '.repeat(100)}1;\nfor (let i = 0; i < 100; i++) f = f(); print(f);`, lines: ['print(1)', 'ended'], without: { mujs: 'reads no functions that are so deep in one another' } },
  { name: 'powers', text: 'print(2 ** 3 ** 2, (-2) ** 3, 1 ** -4, 3 ** 33);', lines: ['print(512, -8, 1, 5559060566555523)', 'ended'] },
  { name: 'a power that is too great', text: 'print(2 ** 53);', lines: [], leaves: 'left X1 at main.js:2:7' },
  { name: 'includes', text: 'print([1, 2].includes(2), [1, 2].includes(1, -1), [undefined].includes());', lines: ['print(true, false, true)', 'ended'] },
  { name: 'a static member is inherited and covered', text: 'class A { static m() { return 1; } } class B extends A {} print(B.m()); B.m = 2; print(B.m, A.m());', lines: ['print(1)', 'print(2, 1)', 'ended'] },
  { name: 'a static accessor with its receiver', text: 'class A { static get k() { return this.n; } } class B extends A {} class C extends B {} C.n = 3; print(C.k);', lines: ['print(3)', 'ended'] },
  {
    name: 'template objects',
    text: 'function tag(t, ...v) { print(t[0], t.raw[0], v[0]); return t; } let a = tag`x\\n${1}y`; let b = tag`x\\n${2}y`; print(a === b); try { a[0] = 1; } catch (e) { print(e instanceof TypeError); }',
    lines: ['print("x\\u000a", "x\\\\n", 1)', 'print("x\\u000a", "x\\\\n", 2)', 'print(true)', 'print(true)', 'ended'],
  },
];

// each the side of a pair that stays in the profile
const staying = [
  ['a whole quotient', 'print(8 / 2);', 'print(4)'],
  ['a text that is a number', 'print(" -12 " - 0);', 'print(-12)', { mujs: 'reads a sign in a text with white space as no number' }],
  ['a key with one @', 'print(({})["@" + "k"]);', 'print(undefined)'],
  ['the prototype of a function', 'print(typeof (function () {}).prototype);', 'print("object")'],
  ['new of a function', 'print(new (function () { this.k = 1; })().k);', 'print(1)'],
  ['a static member of the parent', 'class A { static m() { return 1; } } class B extends A {} print(B.m());', 'print(1)'],
  ['the parent\'s own static member', 'class A { static m() { return 1; } } class B extends A {} print(A.m());', 'print(1)'],
  ['a property that isn\'t there', 'print([].nothing);', 'print(undefined)'],
  ['the type of a function', 'print(typeof function () {});', 'print("function")'],
  ['the text of an array', 'print(({}).toString.call([]));', 'print("[object Array]")'],
  ['a function as the parent', 'class A extends (function () {}) {} print(typeof A);', 'print("function")'],
  ['apply with an array', 'print((x => x).apply(null, [1]));', 'print(1)'],
];
for (const [name, text, line, without] of staying) programs.push({ name, text, lines: [line, 'ended'], without });
programs.push({ name: 'a name of a namespace', files: { 'main.js': `${host}import * as ns from "./k.js"; print(ns.k);`, 'k.js': 'export let k = 1;' }, lines: ['print(1)', 'ended'] });

programs.push({
  name: 'four modules', at: 'main.js', map: ['main.js', 'queue.js', 'tree.js', 'text.js'], most: 262144,
  files: {
    'main.js': `import {print} from "host";
import Queue, {total} from "./queue.js";
import {walk, insert} from "./tree.js";
import * as text from "./text.js";
const q = new Queue(3);
let root = null;
for (const k of [5, 2, 8, 1, 9]) {
  root = insert(root, k);
  q.put(k);
}
print(text.list([...q]), total);
for (const {key, depth} of walk(root)) {
  if (key > 8) break;
  print(\`\${text.pad(depth)}\${key}\`);
}
print(q.size, text.title);
`,
    'queue.js': `export let total = 0;
class Base {
  constructor(limit = 2) { this.limit = limit; this.items = []; }
  get size() { return this.items.length; }
}
export default class Queue extends Base {
  constructor(...rest) { super(...rest); }
  put(k) {
    total += k;
    if (this.size === this.limit) this.take();
    this.items.push(k);
  }
  take() {
    const [first, ...others] = this.items;
    this.items = others;
    return first;
  }
  *[Symbol.iterator]() { yield* this.items; }
}
`,
    'tree.js': `export function insert(node, key) {
  if (node === null) return { key, left: null, right: null };
  const { left, right } = node;
  return key < node.key
    ? { key: node.key, left: insert(left, key), right }
    : { key: node.key, left, right: insert(right, key) };
}
export function* walk(node, depth = 0) {
  if (node === null) return;
  yield* walk(node.left, depth + 1);
  yield { key: node.key, depth };
  yield* walk(node.right, depth + 1);
}
`,
    'text.js': `export const title = "queue\\ttree";
export function pad(n, fill = "-") {
  let s = "";
  while (n-- > 0) s += fill;
  return s;
}
export const list = items => \`[\${items.join(" ")}]\`;
`,
  },
  lines: ['print("[8 1 9]", 25)', 'print("--1")', 'print("-2")', 'print("5")', 'print("-8")', 'print(3, "queue\\u0009tree")', 'ended'],
});

// a graph of many modules: a class with an iterator each, and a main module that loops over all
function sampleGraph(count) {
  const files = { 'main.js': host };
  for (let i = 1; i <= count; i++) {
    files['main.js'] += `import {K as K${i}, c as c${i}} from "./m${i}.js";\n`;
    files[`m${i}.js`] = `export let c = 0;
export class K {
  constructor(k) { this.k = k; }
  [Symbol.iterator]() {
    let i = 0, k = this.k;
    return { next: () => { c = c + 1; return { value: i, done: i++ >= k }; } };
  }
}
`;
  }
  const lines = [];
  for (let i = 1; i <= count; i++) {
    files['main.js'] += `for (const v of new K${i}(${i % 5})) print(v);\nprint(c${i});\n`;
    for (let v = 0; v < i % 5; v++) lines.push(`print(${v})`);
    lines.push(`print(${i % 5 + 1})`);
  }
  return { files, lines: [...lines, 'ended'] };
}
for (const count of [1, 10]) programs.push({ name: `the sample of ${count}`, at: 'main.js', ...sampleGraph(count) });

// a program with a script for each module
const split = (name) => ({ ...programs.find((row) => row.name === name), name: `${name}, split`, words: ['split', 'main.js'], map: undefined, unmapped: undefined });
programs.push(...['no byte', 'a ring of two', 'a live import', 'tasks that a host picks', 'a host that throws while generators wait', 'the sample of 10'].map(split));

const chain = (last) => {
  const files = { 'main.js': 'import "./m1.js";' };
  for (let i = 1; i < last; i++) files[`m${i}.js`] = `import "./m${i + 1}.js";`;
  files[`m${last}.js`] = '';
  return files;
};
const four = 'import "./a.js"; import "./b.js"; import "./c.js"; import "./d.js";';
const long = (last) => ({ 'main.js': four + spaces(4194304 - four.length), 'a.js': spaces(4194304), 'b.js': spaces(4194304), 'c.js': spaces(4194304), 'd.js': last });
const ring = (name) => `export * from "./${name}.js";`;
const others = [
  { name: 'an end too early', files: { 'main.js': 'let x =' }, refused: 'main.js:1:8: syntax fault' },
  { name: 'for-in', files: { 'main.js': 'let o = {}, x; for (x in o) ;' }, refused: 'main.js:1:23: outside the profile U1' },
  {
    name: 'a name by two stars', refused: 'main.js:1:9: ambiguous name "k"',
    files: { 'main.js': 'import {k} from "./s.js";', 's.js': 'export * from "./p.js"; export * from "./q.js";', 'p.js': 'export let k = 1;', 'q.js': 'export let k = 1;' },
  },
  { name: 'no module', files: { 'main.js': 'import "./no.js";' }, refused: 'main.js:1:8: missing module "./no.js"' },
  { name: 'a line end before =>', files: { 'main.js': 'let x = 1, f = x\n=> 1;' }, refused: 'main.js:2:1: syntax fault' },
  { name: 'a ring of stars', files: { 'main.js': 'import {k} from "./a.js";', 'a.js': ring('b'), 'b.js': ring('c'), 'c.js': ring('a') }, refused: 'main.js:1:9: unresolved name "k"' },
  { name: 'no entry', files: {}, refused: 'main.js: missing' },
  { name: 'no entry to split', words: ['split', 'main.js'], files: {}, refused: 'main.js: missing' },
  { name: 'a name that ends nowhere, split', words: ['split', 'main.js'], files: { 'main.js': 'import {k} from "./a.js";', 'a.js': '' }, refused: 'main.js:1:9: unresolved name "k"' },
  { name: 'an open text', text: 'let s = "ab', refused: 'main.js:2:9: lexical fault OpenString' },
  { name: 'a sign before a power', text: 'print(-2 ** 2);', refused: 'main.js:2:10: syntax fault' },
  { name: 'strictness beside a default', text: 'function f(a = 1) { "use strict"; }', refused: 'main.js:2:21: early error E25' },
  { name: 'a host as a tag', text: 'print`a`;', refused: 'main.js:2:1: outside the profile U14' },
  { name: 'the entry can\'t be read', files: { 'main.js': null }, refused: 'main.js: read fault', status: 3 },
  { name: 'a module can\'t be read', files: { 'main.js': `${host}import "./queue.js";`, 'queue.js': null }, refused: 'queue.js: read fault', status: 3 },
  { name: 'no words', words: [], files: {}, refused: usage, status: 2 },
  { name: 'no entry among the words', words: ['run'], files: {}, refused: usage, status: 2 },
  { name: 'no steps', words: ['run', '--steps=0', 'main.js'], files: {}, refused: usage, status: 2 },
  { name: 'an entry with a dash', words: ['build', '--', '-m.js'], files: { '-m.js': '' }, lines: ['ended'], unmapped: first },
  { name: '4,194,304 spaces', files: { 'main.js': spaces(4194304) }, lines: ['ended'], unmapped: first },
  { name: 'one space more', files: { 'main.js': spaces(4194305) }, refused: 'main.js: file too long', status: 6 },
  { name: '257 brackets', files: { 'main.js': '('.repeat(257) }, refused: 'main.js:1:257: too deep', status: 6 },
  { name: '256 brackets', files: { 'main.js': '('.repeat(256) + '1' + ')'.repeat(256) } },
  { name: '1,024 modules', files: chain(1023), lines: ['ended'] },
  { name: '1,025 modules', files: chain(1024), refused: 'm1023.js:1:8: too many modules', status: 6 },
  { name: '16,777,216 bytes', files: long('') },
  { name: 'a byte more', files: long(' '), refused: 'd.js: graph too long', status: 6 },
  { name: 'a script without a map', words: ['map', 'main.js'], files: { 'main.js': '1;' }, refused: 'main.js: map fault NoMap' },
  { name: 'a stream that takes nothing', text: 'print(1+2);', full: true },
];

module.exports = { rows: programs.concat(others), host, sampleGraph };

// Texts of modules of which the answer is known: each row of the tables of early errors and of constructs outside the profile, each
// lexical fault, and each kind of construct that counts for the depth, 256 of which may be open at once.
'use strict';

// In a text the place stands behind §.
const marked = (wanted, texts) => texts.map((text) => {
  const at = text.indexOf('§');
  return at < 0 ? [text, wanted] : [text.replace('§', ''), wanted + ' ' + Buffer.byteLength(text.slice(0, at))];
});
const table = {
  'a tree': ['', ';', 'let a; { var b; } { let a; }', 'function f() { var a; function a() {} }', 'function f(a) { var a; }', 'function f(a) { function a() {} }', 'function f(a = 1) { "use\\x20strict"; }', 'function f(a) { "use strict"; }', 'function f(a = 1) { ("use strict"); }', 'function f(a = 1) { 1; "use strict"; }', 'k: { () => { k: ; }; }', 'k: ; k: ;', 'let a, [b] = [], { c } = {}; export { a, b as d, c as default };', 'class A { constructor() {} static constructor() {} ["constructor"]() {} }', 'class A { prototype() {} static ["prototype"]() {} }', 'let Array; Array = 1;', 'let eval_; eval_ = 1;', '({ [Symbol.iterator]: 1 });', '[][Symbol.iterator];', 'import { a } from "host"; a(1);', 'import "host";', 'import {} from "host";', 'class A { a() { super.b; } } class B extends A { constructor() { super(); () => super(); } }', 'function f() { new.target; () => new.target; }', 'for (const a of []) ;', 'function* g() { yield; }', 'let a; ({ a } = { a: 1 });'],
  E1: ['let a; let §a;', 'const a = 1; class §a {}', 'import a from "m"; let §a;', 'import { a, b as §a } from "m";', 'import * as a from "m"; import §a from "n";', '{ let a; function §a() {} }', '{ function a() {} function §a() {} }', 'function a() {} function §a() {}', 'switch (1) { case 1: let a; default: const §a = 1; }', 'function f() { let a; class §a {} }', 'let [a, §a] = [];', 'let { a, b: [§a] } = {};', 'for (let [a, §a] of []) ;', 'for (let a, §a;;) ;', 'class A {} import { §A } from "m";', 'export let a; export class §a {}'],
  E2: ['let a; var §a;', 'var a; let §a;', '{ let a; { var §a; } }', '{ { var a; } let §a; }', 'function f() { var a; let §a; }', 'function f() { function a() {} let §a; }', 'import a from "m"; for (var §a of []) ;', 'var a; function §a() {}', 'function a() {} var §a;', 'switch (1) { case 1: let a; case 2: var §a; }', 'let a; for (var §a = 1;;) ;', 'let a; try { var [§a] = []; } finally {}', 'export let a; export var §a;', 'let a; k: if (1) ; else var §a;'],
  E3: ['function f(a) { let §a; }', '(a) => { const §a = 1; };', 'a => { class §a {} };', 'class A { m({ a }) { let [§a] = []; } }', 'function f(...a) { let §a; }', '({ set a(b) { let §b; } });', 'function* g(a = 1) { let §a; }'],
  E4: ['function f(a, §a) {}', '(a, §a) => 1;', '({ m({ a }, [§a]) {} });', 'function f(a, ...§a) {}', '([a, §a]) => 1;', 'function* g(a, §a) {}', 'class A { constructor(a, §a) {} }', '({ set a([b, §b]) {} });'],
  E5: ['try {} catch ([a, §a]) {}', 'try {} catch (a) { let §a; }', 'try {} catch (a) { var §a; }', 'try {} catch (a) { for (var §a of []) ; }', 'try {} catch (a) { { var §a; } }', 'try {} catch (a) { function §a() {} }', 'try {} catch ({ a }) { class §a {} }'],
  E6: ['for (let a;;) { var §a; }', 'for (let a of []) var §a;', 'for (const a of []) { { var §a; } }', 'for (let [a] of []) for (var §a;;) ;'],
  E7: ['let §eval;', 'var §arguments;', 'function §arguments() {}', 'function f(§eval) {}', '(§eval) => 1;', '§eval => 1;', '({ §eval }) => 1;', 'import { §eval } from "m";', 'import §arguments from "m";', 'import * as §eval from "m";', 'import { a as §eval } from "m";', 'let { a: §eval } = {};', 'let [...§eval] = [];', 'class §eval {}', '(class §eval {});', '(function §eval() {});', '(function* §arguments() {});', 'try {} catch (§eval) {}', 'for (let §arguments of []) ;', 'for (var §eval;;) ;', '({ set a(§eval) {} });', 'export default function §eval() {}'],
  E8: ['§eval = 1;', '§arguments++;', '[§eval] = [];', '({ a: §arguments } = {});', '({ §eval } = {});', '({ §eval = 1 } = {});', 'for (§eval of []) ;', '--§eval;', '§eval += 1;', '(§eval) = 1;', '[...§arguments] = [];', 'for ([§eval] of []) ;', 'function f() { §arguments = 1; }'],
  E9: ['let a; §delete a;', 'let a; §delete ((a));', 'typeof §delete Array;'],
  E10: ['§1 = 2;', 'let f; §f() = 1;', '[§1] = [];', 'let f; [f, §f()] = [];', 'for (§1 of []) ;', 'let f; for (§f() of []) ;', 'let f; §f()++;', 'let f; ++§f();', 'let f; §[f] += 1;', 'let f; §({ f })++;', '({ a: §1 } = {});', 'let f; [§...f, 1] = [];', 'let f; [§...f, ] = [];', 'let f; §(f, f) = 1;', 'let f; §([f]) = 1;', 'let f; [§([f])] = [];', 'let f; [§f += 1] = [];', '({ §get a() {} } = {});', '({ §a() {} } = {});', 'function f() { §new.target = 1; }', '§`a` = 1;', '§this = 1;', '§"a" = 1;', 'for (§(1) of []) ;', 'let f; [[§f + 1]] = [];', 'let f; ++§-f;'],
  E11: ['({ a §= 1 });', 'let f; f({ a §= 1 });', '[{ a §= 1 }];', '({ a: { b §= 1 } });', 'let f; [{ f §= 1 }.f] = [];', '({ a §= 1 }).a;', 'for ({ a §= 1 };;) ;'],
  E12: ['const §a;', 'for (const §a;;) ;', 'const a = 1, §b;', 'export const §a;', '{ const §a, b = 1; }'],
  E13: ['k: §k: ;', 'k: { §k: ; }', 'k: while (true) { §k: ; }', '§k: function f() {}', 'j: §k: function f() {}', 'while (true) §k: function f() {}', 'if (1) §k: function f() {} else ;', 'export { f }; §k: function f() {}', 'export { f }; j: §k: function f() {}', 'function g() { §k: function f() {} let f; }'],
  E14: ['break §k;', 'k: { while (true) { continue §k; } }', 'k: { function f() { break §k; } }', 'k: { () => { break §k; }; }', 'k: ; while (true) continue §k;', 'k: { continue §k; }', 'k: while (true) { ({ m() { continue §k; } }); }', 'while (true) { break §k; }', 'j: k: { continue §j; }'],
  E15: ['§break;', '§continue;', 'switch (1) { case 1: §continue; }', 'while (true) { function f() { §break; } }', 'if (1) §break;', 'k: §break;', 'for (;;) { () => { §continue; }; }', 'while (true) ; §break;', 'for (;;) { class A { m() { §break; } } }'],
  E16: ['function* g(a = §yield) {}', 'function* g() { (a = §yield) => 1; }', 'class A { *g(a = §yield 1) {} }', '({ *g({ a = §yield }) {} });', 'function* g() { ({ a = §yield* [] }) => { }; }', '(function* (a = [§yield]) {});'],
  E17: ['§super();', 'class A { constructor() { §super(); } }', 'class B {} class A extends B { m() { §super(); } }', 'function f() { §super(); }', 'class B {} class A extends B { constructor() { (function () { §super(); }); } }', 'class B {} class A extends B { static constructor() { §super(); } }', '({ m() { §super(); } });', 'class B {} class A extends B { *m() { () => §super(); } }', 'class B {} class A extends B { constructor() { class C { m() { §super(); } } } }'],
  E18: ['§super.a;', 'function f() { §super[1]; }', '({ a: function () { §super.b; } });', '() => §super.a;', 'class A { [§super.a]() {} }', 'class A { m() { function f() { §super.a; } } }', '({ a: () => §super.b });', 'class A extends (§super.a) {}'],
  E19: ['§new.target;', '() => §new.target;', '({ [§new.target]: 1 });', 'class A { [§new.target]() {} }', '() => { () => §new.target; };'],
  E20: ['class A { constructor() {} §constructor() {} }', 'class A { constructor() {} m() {} §"constructor"() {} }', '(class { "constructor"() {} §constructor() {} });', 'class A { constructor() {} get §constructor() {} }', 'class A { constructor() {} *§constructor() {} }', 'class A { constructor() {} set §"constructor"(a) {} }'],
  E21: ['class A { get §constructor() {} }', 'class A { set §constructor(a) {} }', 'class A { *§constructor() {} }', 'class A { get §"constructor"() {} }'],
  E22: ['class A { static §prototype() {} }', "class A { static get §'prototype'() {} }", 'class A { static set §prototype(a) {} }', 'class A { static *§prototype() {} }'],
  E23: ['let a; export { a, §a };', 'export default 1; export §default 2;', 'let a; export { a as default }; export §default 1;', 'export let a; export { §a };', 'export { a } from "m"; export let §a;', 'export { a } from "m"; export { b as §a } from "n";', 'export { default } from "m"; export §default class {}', 'export function a() {} let b; export { b as §a };'],
  E24: ['export { §a };', 'export { §a as b };', '{ let a; } export { §a };', 'export { §undefined };', 'export { §a, b }; let b;', 'function f(a) {} export { §a };', 'export default function () {} export { §f };', 'export { §a as b, a as c };', 'export { §f }; { k: function f() {} }', 'export { §f }; if (1) k: function f() {} else ;', 'export { §f }; function g() { k: function f() {} }'],
  E25: ['function f(a = 1) { §"use strict"; }', "(...a) => { §'use strict'; };", 'class A { m({ a }) { "b"; §"use strict"; } }', '({ set a([b]) { §"use strict"; } });', 'function* g(...a) { §"use strict" }', 'class A { constructor(a = 1) { §"use strict"; } }', 'function f(a, [b]) { "use\\x20strict"; §"use strict"; "use strict"; }'],
  'Outside 1': ['let o, x; for (x §in o) ;', 'for (let a §in {}) ;', 'for (var [a] §in {}) ;', 'let a; for (a.b §in {}) ;', 'let o = {}, x; for (x §in o) ;'],
  'Outside 2': ['let a = §/b/;', '§/=a/;', 'let f; f(§/a/);', '[§/a/];', 'typeof §/a/;', 'if (1) §/a/;', '{} §/a/;', '`${§/a/}`;', '() => §/a/;'],
  'Outside 3': ['let a = §1.5;', '§.5;', '§1e3;', '({ §1.5: 1 });', '§1.;'],
  'Outside 4': ['let a = §9007199254740992;', '§0x20000000000000;', '({ §9007199254740993: 1 });'],
  'Outside 5': ['§with (a) ;', 'if (1) §with (a) ;', '{ §with (a) ; }'],
  U6: ['§eval;', '§eval("1");', 'typeof §eval;', 'export default §eval;', '({ §eval });'],
  U7: ['§x;', 'let a = §Map;', 'function f() { return §y; }', 'export default §JSON;', 'typeof §z;', '§x = 1;', 'f: ; §f;', '{ let a; } §a;', '({ §x });', '`${§x}`;', '§arguments;', '() => §arguments;', 'let f; f(...§x);', 'for (const a of §b) ;'],
  U8: ['§Array = 1;', '§undefined++;', '[§Object] = [];', 'for (§String of []) ;', '--§Error;', '({ a: §TypeError } = {});', '({ §RangeError = 1 } = {});', '(§Array) = 1;'],
  U9: ['§Symbol;', '§Symbol.iterator;', '({ [(§Symbol.iterator)]: 1 });', '({ [§Symbol.a]: 1 });', '[][§Symbol.iterator.a];', '§Symbol();'],
  U10: ['let §__proto__;', '({ §__proto__: 1 });', '({}).§__proto__;', '({ §"@@a": 1 });', '({ §"__proto__": 1 });', 'class A { §__proto__() {} }', 'class A { static §"@@iterator"() {} }', 'import { §__proto__ as a } from "m";', 'let { §__proto__: a } = {};', '({ get §__proto__() {} });'],
  U11: ['class A extends §null {}', 'class A extends §Error {}', '(class extends §Object {});'],
  U12: ['({ a() { §super.b; } });', '({ get a() { return §super["b"]; } });', '({ a() { () => §super.b; } });'],
  U13: ['class A { a() { §super.b = 1; } }', 'class A { a() { delete §super.b; } }', 'class A { a() { §super.b++; } }', 'class A { a() { [§super.b] = []; } }', 'class A { a() { for (§super["b"] of []) ; } }', 'class A { a() { delete (§super.b); } }'],
  U14: ['import { a } from "host"; §a;', 'import { a } from "host"; let b = §a;', 'import { a } from "host"; new §a();', 'import { a } from "host"; §a`b`;', 'import { a } from "host"; (§a)();', 'import { a } from "host"; export { §a };', 'import { a } from "host"; a(§a);', 'import { a } from "host"; §a.b();', 'import { a } from "host"; ({ §a });', 'import { a } from "host"; §a = 1;', 'import { b as a } from "host"; typeof §a;'],
  U15: ['import a from §"host";', 'import * as a from §"host";', 'export * from §"host";', 'export { a } from §"host";', 'import a, { b } from §"host";'],
  Lexical: ['§@', 'let a §#', '§\\u0061', 'a§\\u0062', '§"abc', "§'a\n'", '§`abc', '`a${1§}b', '§/* a', 'a; §/* b\n', '"§\\x1"', '"§\\u{110000}"', '`§\\u`', '§01', '"§\\01"', '"§\\8"', '§0x', '§3in', '§1a', '§0b2', 'let a\u00e9 = "\u{1F600}" §@'],
  Syntax: ['let x =§', 'let x = 1, f = x\n§=> 1;', '({ get a(§b) {} });', '-2 §** 2;', 'let a = 1 §let b;', 'new (a, §...b)', '(a, ...b)§;', 'let §1;', 'if (a) §let b;', 'function f(a,§) {}', 'f(a,§)', 'for (let a = 1 §of b) ;', 'return_: §return;', 'export §a;', 'let { if §} = a;', '({ if §});', 'throw\n§a;', 'let [a]§;', 'import { if §} from "m";', 'export { if }§;', 'async () §=> 1', 'a?§.b', 'let a = b\n++§', 'for (;;)§', 'let §let;', 'class A { a §= 1 }', 'class A { set a(§) {} }', '`${§}`', '[...[a]] = b; let [...§[c]] = d;', 'let a §yield;'],
};
const rows = Object.entries(table).flatMap(([wanted, texts]) => marked(wanted, texts));
// chains count nothing
const chains = [['a', ' + a'], ['a', '.b'], ['a', '(a)'], ['a', '[a]'], ['a', ', a'], ['a', '`b`'], ['if (a) ;', ' else if (a) ;'], ['a', ' && a'], ['{}', '{}'], ['a;', ' a;']].map(([first, more]) => [first + more.repeat(1000), first.startsWith('{}') ? 'a tree' : 'U7 ' + (/^if/.test(first) ? 4 : 0)]);

// How many constructs of a kind stand in one another: the text, and the byte at which the last one begins.
const nest = (open, middle, close, shift = 0) => (count) => ({ text: open.repeat(count) + middle + close.repeat(count), last: open.length * (count - 1) + shift });
// a construct in blocks of which each counts one: how many of its own are open at its place
const inBlocks = (front, place, behind, own = 1) => (count) => {
  const blocks = Math.max(count - own, 0);
  return { text: '{'.repeat(blocks) + front + place + behind + '}'.repeat(blocks), last: blocks + front.length };
};
const inGenerator = (word) => (count) => {
  const front = 'function* g() { ';
  return { text: front + word.repeat(count - 1) + '1 }', last: front.length + word.length * (count - 1) };
};
const deep = [
  ['( )', nest('(', '1', ')')], ['[ ]', nest('[', '', ']')], ['{ }', nest('{', '', '}')], ['${ }', nest('`${', '1', '}`')], ['a call', nest('a(', '1', ')', 1)], ['an index', nest('a[', '1', ']', 1)],
  ['an object literal', (count) => ({ text: '(' + '{a: '.repeat(count - 1) + '1' + '}'.repeat(count - 1) + ')', last: count === 1 ? 0 : 1 + 4 * (count - 2) })],
  ['the statement under if', nest('if (1) ', ';', '', 3)], ['under while', nest('while (1) ', ';', '', 6)], ['under for', nest('for (;;) ', ';', '', 4)], ['under for-of', nest('for (a of a) ', ';', '', 4)],
  ['under do', nest('do ', ';', ' while (1);', 3)], ['under a label', nest('k: ', ';', '', 3)], ['the statement under else', (count) => { const pairs = Math.floor(count / 2); return { text: 'if (1) ; else k: '.repeat(pairs) + (count % 2 ? 'k: ' : '') + ';', last: 17 * pairs + 3 }; }],
  ['an operand of -', nest('- ', '1', '', 2)], ['of typeof', nest('typeof ', '1', '', 7)], ['of void', nest('void ', '1', '', 5)], ['of delete', nest('delete ', '1', '', 7)], ['of ++', nest('++ ', 'a', '', 3)], ['of ~', nest('~', '1', '', 1)], ['of !', nest('!', '1', '', 1)], ['of new', nest('new ', 'a', '', 4)], ['of yield', inGenerator('yield ')], ['of yield *', inGenerator('yield * ')],
  ['what follows =', nest('a = ', '1', '', 4)], ['what follows +=', nest('a += ', '1', '', 5)], ['what follows **=', nest('a **= ', '1', '', 6)], ['an initializer', inBlocks('let a = ', '1', ';')], ['the default of a parameter', inBlocks('function f(a = ', '1', ') {}', 2)], ['the default of a part', inBlocks('let [a = ', '1', '] = 1;', 2)], ['the default of a shorthand', inBlocks('let { a = ', '1', ' } = 1;', 2)], ['the default of an assigned part', inBlocks('[a = ', '1', '] = 1;', 2)],
  ['the first branch of ? :', nest('a ? ', '1', ' : 1', 4)], ['the second branch of ? :', (count) => ({ text: 'a ? 1 : '.repeat(count) + '1', last: 8 * (count - 1) + 4 })], ['the body of an arrow', nest('a => ', '1', '', 5)], ['a heritage', (count) => ({ text: 'a = ' + 'class extends '.repeat(count - 1) + 'a' + ' {}'.repeat(count - 1), last: 4 + 14 * (count - 1) })], ['the right side of **', nest('a ** ', '1', '', 5)],
  ['the parameters of a function', inBlocks('function f', '(', ') {}')], ['the body of a class', inBlocks('class A ', '{', '}')], ['the parameters of a method', inBlocks('class A { m', '(', ') {} }', 2)], ['the key of a member', inBlocks('class A { ', '[', '1]() {} }', 2)], ['the parameters of an arrow', inBlocks('', '(', ') => 1;')], ['the body in braces of an arrow', inBlocks('() => ', '{', '}', 2)],
  ['an array pattern', inBlocks('let ', '[', '] = 1;')], ['an object pattern', inBlocks('let ', '{', '} = 1;')], ['the subject of a switch', inBlocks('switch ', '(', '1) {}')], ['the block of a try', inBlocks('try ', '{', '} finally {}')],
];

module.exports = { rows: [...rows, ...chains], deep };

// Holds what the references of modules find to an analysis of its own over acorn's trees, which gathers the names of each scope before
// it looks at references. Usage: node --expose-internals scopes.js PROGRAM, or SCOPE_LINES=COMMAND in place of PROGRAM.
'use strict';
const { spawnSync } = require('child_process');
const { peer } = require('./modules_acorn.js');
const { byteOffsets } = require('./modules_tree.js');
const { wholes, singles } = require('./modules_corpus.js');
const { programs } = require('./modules_programs.js');
const { rows } = require('./modules_rows.js');
const { large } = require('./modules_large.js');

// The identifiers that a pattern declares.
function* targetsOf(node) {
  if (!node) return;
  if (node.type === 'Identifier') yield node;
  else if (node.type === 'AssignmentPattern') yield* targetsOf(node.left);
  else if (node.type === 'RestElement') yield* targetsOf(node.argument);
  else if (node.type === 'ArrayPattern') for (const part of node.elements) yield* targetsOf(part);
  else if (node.type === 'ObjectPattern') for (const part of node.properties) yield* targetsOf(part.value || part.argument);
}
// Whether a default or a computed key stands in a pattern.
const hasExpression = (node) => {
  if (!node || node.type === 'Identifier') return false;
  if (node.type === 'AssignmentPattern') return true;
  if (node.type === 'RestElement') return hasExpression(node.argument);
  if (node.type === 'ArrayPattern') return node.elements.some(hasExpression);
  return node.properties.some((part) => part.computed || hasExpression(part.value || part.argument));
};
const declared = (pattern, kind, end) => [...targetsOf(pattern)].map(({ name, start }) => ({ name, at: start, kind, end }));

// What a statement declares in the block that it stands in.
function lexical(node) {
  if (node.type === 'ExportNamedDeclaration' || node.type === 'ExportDefaultDeclaration') {
    const inner = node.declaration;
    return inner && (node.type === 'ExportNamedDeclaration' || inner.id && /Declaration$/.test(inner.type)) ? lexical(inner).map((one) => (node.type === 'ExportDefaultDeclaration' ? { ...one, end: node.end } : one)) : [];
  }
  if (node.type === 'VariableDeclaration' && node.kind !== 'var') return node.declarations.flatMap((part) => declared(part.id, node.kind, part.end));
  if (node.type === 'FunctionDeclaration' && node.id) return declared(node.id, 'function', node.end);
  if (node.type === 'ClassDeclaration' && node.id) return declared(node.id, 'class', node.end);
  if (node.type === 'ImportDeclaration') return node.specifiers.flatMap((one) => declared(one.local, node.source.value === 'host' ? 'host' : 'import', node.end));
  return [];
}
// What `var` declares in a statement, wherever it stands in its function.
function vars(node) {
  if (node === null || typeof node !== 'object') return [];
  if (Array.isArray(node)) return node.flatMap(vars);
  if (/Function|Class/.test(node.type)) return [];
  if (node.type === 'ForOfStatement' && node.left.type === 'VariableDeclaration' && node.left.kind === 'var') return [...declared(node.left.declarations[0].id, 'var', node.left.end), ...vars(node.body)];
  if (node.type === 'VariableDeclaration') return node.kind === 'var' ? node.declarations.flatMap((part) => declared(part.id, 'var', part.end)) : [];
  return Object.entries(node).flatMap(([key, value]) => (/^(type|start|end)$/.test(key) ? [] : vars(value)));
}

// Where one stands: the innermost scope, its function, whether in a loop of it, in a head or in the clauses of a switch, and what is round it.
const enter = (up, more) => ({ ...up, isHead: false, isCases: false, names: new Map(), up, ...more });
const within = (up, more) => ({ ...up, up, ...more });
function declare(place, list) {
  for (const one of [...list].sort((x, y) => x.at - y.at)) if (!place.names.has(one.name)) place.names.set(one.name, { ...one, isLooped: one.kind !== 'var' && place.isLooped });
}

const fits = { let: true, const: true, class: true, ownClass: true, import: true };
function find(place, name, at) {
  for (let found = place; found; found = found.up) {
    const binding = found.names.get(name);
    if (!binding) continue;
    const hasBegun = binding.kind === 'import' || binding.kind === 'host' ? false : binding.kind === 'let' || binding.kind === 'const' ? !found.isHead : true;
    const isCertain = binding.end <= at && found.fn === place.fn && !found.isCases && hasBegun;
    const isCounted = fits[binding.kind] || (binding.kind === 'parameter' || binding.kind === 'caught') && found.isHead;
    return { at, binding: binding.at, isLooped: binding.isLooped, isCaptured: found.fn !== place.fn, isCertain, isUncertain: isCounted && !isCertain };
  }
  return { at, binding: null };
}

function analyse(tree) {
  const references = [];
  const list = (nodes, place) => { for (const node of nodes) look(node, place); };
  const refer = (node, place) => references.push(find(place, node.name, node.start));
  const block = (statements, place, more) => {
    const inner = enter(place, more);
    declare(inner, statements.flatMap(lexical));
    return inner;
  };
  // the expressions of a pattern that declares names
  const insides = (node, place) => {
    if (!node || node.type === 'Identifier') return;
    if (node.type === 'AssignmentPattern') { insides(node.left, place); look(node.right, place); }
    else if (node.type === 'RestElement') insides(node.argument, place);
    else if (node.type === 'ArrayPattern') for (const part of node.elements) insides(part, place);
    else for (const part of node.properties) { if (part.computed) look(part.key, place); insides(part.value || part.argument, place); }
  };
  const func = (node, place) => {
    const isArrow = node.type === 'ArrowFunctionExpression';
    const inner = enter(place, { fn: node, isLooped: false });
    if (!isArrow) inner.names.set('arguments', { at: node.start, kind: 'arguments', end: node.start, isLooped: false });
    const parameters = node.params.flatMap((part) => declared(part, 'parameter', part.end));
    const isBlock = node.body.type === 'BlockStatement';
    const names = isBlock ? [...node.body.body.flatMap(lexical), ...vars(node.body.body)] : [];
    declare(inner, parameters);
    const isOwn = node.params.some(hasExpression);
    const body = isOwn ? enter(inner) : inner;
    declare(body, names);
    const head = within(inner, { isHead: true });
    for (const part of node.params) insides(part, head);
    if (isBlock) list(node.body.body, body); else look(node.body, body);
  };
  const klass = (node, place) => {
    const inner = node.id ? enter(place) : place;
    if (node.id) declare(inner, declared(node.id, 'ownClass', node.end));
    look(node.superClass, inner);
    for (const member of node.body.body) { if (member.computed) look(member.key, inner); func(member.value, inner); }
  };
  const looped = (place) => within(place, { isLooped: true });
  const kinds = {
    Identifier: refer,
    FunctionDeclaration: func,
    ArrowFunctionExpression: func,
    FunctionExpression(node, place) {
      const inner = node.id ? enter(place) : place;
      if (node.id) declare(inner, declared(node.id, 'ownFunction', node.end));
      func(node, inner);
    },
    ClassDeclaration: klass,
    ClassExpression: klass,
    VariableDeclaration(node, place) { for (const part of node.declarations) { insides(part.id, place); look(part.init, place); } },
    BlockStatement(node, place) { list(node.body, block(node.body, place)); },
    SwitchStatement(node, place) {
      look(node.discriminant, place);
      const inner = block(node.cases.flatMap((one) => one.consequent), place, { isCases: true });
      for (const one of node.cases) { look(one.test, inner); list(one.consequent, inner); }
    },
    CatchClause(node, place) {
      const inner = enter(place);
      declare(inner, declared(node.param, 'caught', node.body.start));
      insides(node.param, within(inner, { isHead: true }));
      look(node.body, inner);
    },
    WhileStatement(node, place) { list([node.test, node.body], looped(place)); },
    DoWhileStatement(node, place) { list([node.body, node.test], looped(place)); },
    ForStatement(node, place) {
      const inner = block(node.init && node.init.type === 'VariableDeclaration' ? [node.init] : [], looped(place));
      list([node.init, node.test, node.update, node.body], inner);
    },
    ForOfStatement(node, place) {
      const isDeclared = node.left.type === 'VariableDeclaration';
      const inner = enter(looped(place));
      if (isDeclared && node.left.kind !== 'var') declare(inner, declared(node.left.declarations[0].id, node.left.kind, node.left.end));
      if (isDeclared) insides(node.left.declarations[0].id, inner); else look(node.left, inner);
      look(node.right, within(inner, { isHead: true }));
      look(node.body, inner);
    },
    Property(node, place) { if (node.computed) look(node.key, place); look(node.value, place); },
    MemberExpression(node, place) { look(node.object, place); if (node.computed) look(node.property, place); },
    LabeledStatement(node, place) { look(node.body, place); },
    BreakStatement() {},
    ContinueStatement() {},
    MetaProperty() {},
    ImportDeclaration() {},
    ExportAllDeclaration() {},
    ExportNamedDeclaration(node, place) { look(node.declaration, place); },
    ExportDefaultDeclaration(node, place) { look(node.declaration, place); },
  };
  function look(node, place) {
    if (node === null || typeof node !== 'object') return;
    if (Array.isArray(node)) { list(node, place); return; }
    if (kinds[node.type]) { kinds[node.type](node, place); return; }
    for (const [key, value] of Object.entries(node)) if (!/^(type|start|end|regex|value|raw)$/.test(key) || key === 'value' && typeof value === 'object') look(value, place);
  }
  const top = enter(null, { fn: tree, isLooped: false });
  declare(top, [...tree.body.flatMap(lexical), ...vars(tree.body)]);
  list(tree.body, top);
  return references.sort((x, y) => x.at - y.at);
}

const lineOf = (found, offsets) => [
  offsets[found.at], found.binding === null ? 'global' : offsets[found.binding],
  ...(found.isLooped ? ['looped'] : []), ...(found.isCaptured ? ['captured'] : []), ...(found.isCertain ? ['certain'] : []), ...(found.isUncertain ? ['uncertain'] : []),
].join(' ');

const command = process.env.SCOPE_LINES ? ['sh', ['-c', process.env.SCOPE_LINES]] : [process.argv[2], []];
function ask(texts) {
  const input = texts.flatMap((text) => { const bytes = Buffer.from(text); return [Buffer.from(bytes.length + '\n'), bytes]; });
  const run = spawnSync(command[0], command[1], { input: Buffer.concat(input), maxBuffer: 1 << 30 });
  if (run.status !== 0) throw new Error('scopes: the program ended with ' + run.status + ': ' + run.stderr);
  const found = [[]];
  for (const line of run.stdout.toString().split('\n')) if (line === 'end') found.push([]); else found[found.length - 1].push(line);
  found.pop();
  if (found.length !== texts.length) throw new Error('scopes: ' + found.length + ' answers to ' + texts.length + ' texts');
  return found;
}

// Texts in which names are declared in each way and referred to from each place.
const own = [
  'let a = 1; { let a = 2; a; } a; { function f() { return f; } f; } f;',
  'function f(a, b = a, c = d) { var d = 1; let e = a; return () => a + b + c + d + e; }',
  'function f(a, b) { var a; var c = a; { var d = b; let a = d; a; } return arguments; }',
  'for (let i = 0, j = i; i < j; i++) { let k = i; f(() => i + j + k); } i;',
  'for (const x of [x]) x; for (let y of y.z) { () => y; } for (var z of z) z; for (v of w) v;',
  'while (a) { let b = a; f(() => b); } do { const c = 1; c; } while (c);',
  'switch (a) { case b: let b = 1; b; default: b; function g() { return b; } } b;',
  'try { let e = 1; e; } catch ({ a, b = a, c = d }) { let d = a; var e = b; e; } finally { e; }',
  'class A extends A { constructor() { super(A); } static a() { return A; } [A]() { A; } } A; (class B { b() { return B; } }); B;',
  '(function f() { f; return f; }); f; (function* g(a = g) { yield g; }); (() => arguments); function h() { return () => arguments; }',
  'import a, { b as c, d } from "m"; import * as e from "m"; import { print } from "host"; print(a, b, c, d, e); () => print(a);',
  'export default function f() { return f; } f; export let g = f; export { g as h }; export const k = g, l = k;',
  'a: for (;;) { break a; continue a; } a; ({ a, b: c, [d]: e, f() { f; }, get g() { return g; } }); x.y; x[y];',
  'let { a, b: { c = a }, [c]: d = e, ...[] } = f;'.replace(', ...[]', ''), 'let [a, , b = a, ...c] = d; [a, b.c, [c]] = d; ({ a, b: c.d, e = a } = f);',
  'var a = 1; { var a = 2; let b = a; { b; let a; } } function f() { return a; var a; } a; function g(a) { { function a() {} a; } a; }',
  'let x = () => x; const y = y; let z = function () { return z; }; var w = w; if (x) { let x = x; }',
  'for (let i of a) { for (let j of i) { while (j) { let k = () => i + j + k; } } function f() { let l; while (l) l; } }',
  'function* g(a) { for (const b of a) { yield b; yield* a; } } `${g}${`${a}`}`; g`${g}`; new g(...a); typeof g; a += g; ++a; delete a.b;',
  'export default (a) => ({ a, b: (c = a) => c + a });', 'export default class A { a() { return A; } } A;', 'export default class { a(b = () => c) { var c; return c; } }',
];

const text = (one) => (Array.isArray(one) ? one[0] : one);
const sample = +(process.env.SCOPES_SAMPLE || 1);
const all = [...new Set([...own, ...programs, ...rows.map(text), ...singles, ...[...wholes()].filter((_, i) => (i * 7919) % (sample * 37) === 0), large(65536)])];
const answers = ask(all);
let modules = 0, references = 0, failed = 0;
for (const [i, source] of all.entries()) {
  const theirs = peer(source);
  if (theirs.fault || theirs.early) continue;
  const offsets = byteOffsets(source);
  const lines = analyse(theirs.tree).map((found) => lineOf(found, offsets));
  const ours = answers[i];
  modules++;
  references += lines.length;
  const at = lines.findIndex((line, k) => line !== ours[k]);
  if (at < 0 && lines.length === ours.length) continue;
  if (failed++ < 20) console.log('scopes: wanted ' + JSON.stringify(at < 0 ? null : lines[at]) + ', ours ' + JSON.stringify(ours[at < 0 ? lines.length : at]) + ': ' + JSON.stringify(source.slice(0, 300)));
}
console.log('scopes: ' + modules + ' modules, ' + references + ' references, ' + failed + ' differ');
process.exit(failed === 0 ? 0 : 1);

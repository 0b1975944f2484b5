// The words of the kit's library that the definitions use. A list is an array, a number of either kind a number, an optional value has the tags Some
// and None, and the fold over the nodes of a core goes into each of its four types.
'use strict';
const some = (x) => ({ t: 'Some', a: [x] });
const none = { t: 'None', a: [] };
const apply = (f, ...args) => require('./definitions.js').apply(f, args);
const same = (a, b) => a.length === b.length && a.every((x, i) => x === b[i]);
const perhaps = (f, x) => x.t === 'None' ? x : some(f(x.a[0]));
const digits = (n) => [...String(n)].map((c) => c.charCodeAt(0));
const key = (test, list) => list.findIndex((entry) => apply(test, entry[0]));
const spaces = new Set([0x20, 0xa0, 0x1680, 0x202f, 0x205f, 0x3000]);
const uint32 = (n) => n >>> 0;

// a fold: the steps see the nodes with what the fold gives of the nodes in them
function foldOf(steps) {
  const [linkStep, statStep, caseStep, exprStep] = steps;
  const expr = (x) => apply(exprStep, { ...x, links: x.links.map(link) });
  const caseOf = (x) => apply(caseStep, { test: perhaps(expr, x.test), body: x.body.map(stat) });
  const link = (x) => {
    const [a, b, c] = x.a;
    const inside = x.t === 'Strict' ? [a, b.map(expr), c] : x.t === 'Lazy' ? [a, expr(b), perhaps(expr, c)] : [a.map(stat)];
    return apply(linkStep, { t: x.t, a: inside });
  };
  const inStat = {
    Do: ([x]) => [expr(x)], If: ([cases]) => [cases.map(caseOf)], Switch: ([x, cases]) => [expr(x), cases.map(caseOf)],
    Loop: ([labels, test, update, body]) => [labels, perhaps(expr, test), perhaps(expr, update), body.map(stat)],
    Labelled: ([label, body]) => [label, body.map(stat)], Jump: (a) => a, Return: ([x]) => [expr(x)], Throw: ([x]) => [expr(x)],
    TryCatch: ([block, parameter, names, handler]) => [block.map(stat), parameter, names, handler.map(stat)],
    TryFinally: ([block, last]) => [block.map(stat), last.map(stat)], Scoped: ([names, body]) => [names, body.map(stat)],
    Yield: ([x, kind, result]) => [expr(x), kind, result],
  };
  const stat = (x) => apply(statStep, { t: x.t, a: inStat[x.t](x.a) });
  return { expr, caseOf, link, stat };
}
// the same over the nodes of a script, whose thirteen types come in this order
function foldOfScript(steps) {
  const [elementStep, exprStep, forFirstStep, linkStep, propertyStep, statStep, blockStep, caseStep, catchStep, conditionStep, declaredStep, functionStep, operandStep] = steps;
  const map = (f, x) => ({ t: x.t, a: f[x.t] ? f[x.t](x.a) : x.a });
  const expr = (x) => apply(exprStep, map(inExpr, x));
  const inExpr = {
    ArrayList: ([s, xs]) => [s, xs.map(element)], ObjectList: ([s, xs]) => [s, xs.map(property)], Function: ([f]) => [functionOf(f)], Chain: ([s, h, ls]) => [s, expr(h), ls.map(link)],
    New: ([s, f, xs]) => [s, expr(f), xs.map(expr)], Update: ([s, u, x]) => [s, u, expr(x)], Unary: ([s, u, x]) => [s, u, expr(x)], Binary: ([s, x, xs]) => [s, expr(x), xs.map(operand)],
    Conditional: ([s, a, b, c]) => [s, expr(a), expr(b), expr(c)], Assign: ([s, o, a, b]) => [s, o, expr(a), expr(b)], Sequence: ([s, x, xs]) => [s, expr(x), xs.map(expr)],
  };
  const element = (x) => apply(elementStep, map({ Element: ([y]) => [expr(y)] }, x));
  const property = (x) => apply(propertyStep, map({ Plain: ([s, k, y]) => [s, k, expr(y)], Getter: ([s, k, f]) => [s, k, functionOf(f)], Setter: ([s, k, f]) => [s, k, functionOf(f)] }, x));
  const link = (x) => apply(linkStep, map({ Index: ([s, y]) => [s, expr(y)], Call: ([s, ys, site]) => [s, ys.map(expr), site] }, x));
  const operand = (x) => apply(operandStep, { operator: x.operator, value: expr(x.value) });
  const functionOf = (f) => apply(functionStep, { ...f, body: f.body.map(stat) });
  const block = (b) => apply(blockStep, { ...b, statements: b.statements.map(stat) });
  const condition = (c) => apply(conditionStep, { ...c, test: expr(c.test), body: stat(c.body) });
  const declared = (d) => apply(declaredStep, { ...d, init: perhaps(expr, d.init) });
  const caseOf = (c) => apply(caseStep, { ...c, test: perhaps(expr, c.test), body: c.body.map(stat) });
  const handler = (h) => apply(catchStep, { ...h, body: block(h.body) });
  const first = (x) => apply(forFirstStep, map({ FirstVar: ([ds]) => [ds.map(declared)], FirstExpression: ([y]) => [expr(y)] }, x));
  const inStat = {
    Var: ([s, ds]) => [s, ds.map(declared)], FunctionDeclaration: ([f]) => [functionOf(f)], Block: ([b]) => [block(b)], Expression: ([s, x]) => [s, expr(x)],
    If: ([s, c, cs, o]) => [s, condition(c), cs.map(condition), perhaps(stat, o)], DoWhile: ([s, b, t]) => [s, stat(b), expr(t)], While: ([s, t, b]) => [s, expr(t), stat(b)],
    For: ([s, f, t, u, b]) => [s, first(f), perhaps(expr, t), perhaps(expr, u), stat(b)], Return: ([s, x]) => [s, perhaps(expr, x)], Switch: ([s, x, cs]) => [s, expr(x), cs.map(caseOf)],
    Labelled: ([s, l, b]) => [s, l, stat(b)], Throw: ([s, x]) => [s, expr(x)], Try: ([s, b, h, l]) => [s, block(b), perhaps(handler, h), perhaps(block, l)],
  };
  const stat = (x) => apply(statStep, map(inStat, x));
  return { stat, expr };
}
const foldByScript = (which) => (t1, t2, t3, t4, t5, t6, t7, t8, t9, t10, t11, t12, t13, s1, s2, s3, s4, s5, s6, s7, s8, s9, s10, s11, s12, s13, x) => foldOfScript([s1, s2, s3, s4, s5, s6, s7, s8, s9, s10, s11, s12, s13])[which](x);
// The same over the nodes of a module, whose types come with the enums first, each in the order of names. What a node gives is kept, so that no step is
// taken twice.
const treeTypes = { enums: {}, structs: {} };
function readTree() {
  const fs = require('fs'), path = require('path');
  const text = fs.readFileSync(path.join(__dirname, '../../crates/es6_ast/src/tree.rt'), 'utf8').replace(/\/\/.*$/gm, '');
  for (const [, sort, name, body] of text.matchAll(/#\[cycle\(ast\)\]\s*#\[derive\(Drop\)\]\s*pub (enum|struct) (\w+) \{([\s\S]*?)\n\}/g)) {
    if (sort === 'struct') treeTypes.structs[name] = [...body.matchAll(/pub (\w+): ([^,\n]+),/g)].map(([, field, type]) => [field, type]);
    else {
      const variants = {};
      for (const [, tag, , fields, values] of body.matchAll(/^ {4}(\w+)( \{([\s\S]*?)(?:\n {4}| )\}|\(([^)]*)\))?,$/gm)) variants[tag] = values !== undefined ? values.split(/,\s*/) : [...(fields || '').matchAll(/\w+: ([^,\n]+)/g)].map(([, type]) => type.trim());
      treeTypes.enums[name] = variants;
    }
  }
}
function treeFold(steps) {
  if (Object.keys(treeTypes.enums).length === 0) readTree();
  const names = [...Object.keys(treeTypes.enums).sort(), ...Object.keys(treeTypes.structs).sort()];
  const kept = new WeakMap();
  const inner = (type) => {
    const [, outer, of] = /^(Items|Boxed|Option)<(.*)>$/.exec(type) || [];
    if (outer === 'Items') { const f = inner(of); return f && ((list) => list.map(f)); }
    if (outer === 'Option') { const f = inner(of); return f && ((x) => perhaps(f, x)); }
    if (outer === 'Boxed') return inner(of);
    return names.includes(type) ? (x) => node(type, x) : null;
  };
  const node = (type, x) => {
    if (kept.has(x)) return kept.get(x);
    const open = treeTypes.structs[type]
      ? Object.fromEntries(treeTypes.structs[type].map(([field, of]) => [field, inner(of) ? inner(of)(x[field]) : x[field]]))
      : { t: x.t, a: treeTypes.enums[type][x.t].map((of, i) => inner(of) ? inner(of)(x.a[i]) : x.a[i]) };
    const given = apply(steps[names.indexOf(type)], open);
    kept.set(x, given);
    return given;
  };
  return node;
}
const treeFolds = new Map(); // by the step of the first type
const foldByTree = (type) => Object.defineProperty((...args) => {
  const steps = args.slice(27, 54);
  if (!treeFolds.has(steps[0])) treeFolds.set(steps[0], treeFold(steps));
  return treeFolds.get(steps[0])(type, args[54]);
}, 'length', { value: 55 });
const treeNames = ['Argument', 'ArrayPart', 'ArrowBody', 'Element', 'Expression', 'ForFirst', 'ForTarget', 'Key', 'Link', 'ObjectPart', 'Parameter', 'Pattern', 'Property', 'Statement', 'Arrow', 'Block', 'Case', 'Catch', 'Class', 'ClassMember', 'Condition', 'Function', 'Method', 'Operand', 'Part', 'Template', 'TemplatePart'];
const foldBy = (which) => (a, b, c, d, linkStep, statStep, caseStep, exprStep, x) => foldOf([linkStep, statStep, caseStep, exprStep])[which](x);

module.exports = {
  itself: (x) => x, codes: (x) => x, not: (x) => !x, cond: (test, yes, no) => test ? yes : no,
  nat_eq: (a, b) => a === b, nat_lt: (a, b) => a < b, nat_le: (a, b) => a <= b, int_eq: (a, b) => a === b, int_lt: (a, b) => a < b, int_le: (a, b) => a <= b,
  min: (a, b) => Math.min(a, b), max: (a, b) => Math.max(a, b), unsigned_abs: (n) => Math.abs(n), neg_ℤ: (n) => 0 - n,
  int_rem: (a, b) => a % b + 0, int_div: (a, b) => Math.trunc(a / b) + 0, int_rem_euclid: (a, b) => { const r = Number(BigInt(a) % BigInt(b)); return r < 0 ? r + Math.abs(b) : r; },
  int_shr: (a, n) => Math.floor(a / 2 ** n), w32: 32, cast_signed: (w, n) => n | 0, bit_and: (a, b) => uint32(a & b), bit_or: (a, b) => uint32(a | b), bit_xor: (a, b) => uint32(a ^ b),
  length: (list) => list.length, map: (f, list) => list.map((x) => apply(f, x)), filter: (f, list) => list.filter((x) => apply(f, x)), reverse: (list) => [...list].reverse(),
  fold: (f, start, list) => list.reduce((so, x) => apply(f, so, x), start), flat_map: (f, list) => list.flatMap((x) => apply(f, x)), sum_by: (f, list) => list.reduce((n, x) => n + apply(f, x), 0),
  filter_map: (f, list) => list.map((x) => apply(f, x)).filter((x) => x.t === 'Some').map((x) => x.a[0]),
  list_all: (f, list) => list.every((x) => apply(f, x)), list_any: (f, list) => list.some((x) => apply(f, x)), take: (n, list) => list.slice(0, n), drop: (n, list) => list.slice(n),
  replicate: (n, x) => Array.from({ length: n }, () => x), concat: (lists) => lists.flat(1),
  slice_get: (list, n) => n < list.length ? some(list[n]) : none, slice_index_or: (list, n, other) => n < list.length ? list[n] : other, get_or: (list, n, other) => n < list.length ? list[n] : other,
  slice_set: (list, n, x) => { if (n >= list.length) return list; const after = list.slice(); after[n] = x; return after; },
  set: (list, n, x) => { if (n >= list.length) return list; const after = list.slice(); after[n] = x; return after; },
  slice_range: (list, from, to) => list.slice(from, to),
  pointwise: (f, a, b) => a.length === b.length && a.every((x, i) => apply(f, x, b[i])), bytes_eq: (a, b) => same(a, b),
  nat_cmp: (a, b) => a < b ? 'less' : a > b ? 'greater' : 'equal', is_lt: (order) => order === 'less',
  slice_cmp: (f, a, b) => { for (let i = 0; ; i++) { if (i === a.length || i === b.length) return a.length < b.length ? 'less' : a.length > b.length ? 'greater' : 'equal'; const order = apply(f, a[i], b[i]); if (order !== 'equal') return order; } },
  is_none: (x) => x.t === 'None', is_some: (x) => x.t === 'Some', option_map: (f, x) => perhaps((y) => apply(f, y), x), unwrap_or: (x, other) => x.t === 'Some' ? x.a[0] : other,
  lookup: (test, list) => { const at = key(test, list); return at < 0 ? none : some(list[at][1]); },
  insert_entry: (equal, list, k, v) => { const at = key((x) => apply(equal, k, x), list); const after = list.slice(); if (at < 0) after.push({ 0: k, 1: v }); else after[at] = { 0: after[at][0], 1: v }; return after; },
  swap_remove_entry: (test, list) => { const at = key(test, list); if (at < 0) return list; const after = list.slice(); const last = after.pop(); if (at < after.length) after[at] = last; return after; },
  insert_key: (equal, list, k) => list.some((x) => apply(equal, k, x)) ? list : [...list, k],
  decimal: digits, signed_decimal: digits, digits_value: undefined,
  general_category: (u) => ({ t: spaces.has(u) || u >= 0x2000 && u <= 0x200a ? 'SpaceSeparator' : 'Other', a: [] }),
  encode_utf16: (c) => c < 0x10000 ? [c] : [0xd800 + (c - 0x10000 >> 10), 0xdc00 + (c - 0x10000 & 0x3ff)],
  encode_utf8: (c) => [...Buffer.from(String.fromCodePoint(c), 'utf8')], chars: (bytes) => [...Buffer.from(bytes).toString('utf8')].map((c) => c.codePointAt(0)),
  position_or_len: (f, list) => { const at = list.findIndex((x) => apply(f, x)); return at < 0 ? list.length : at; },
  is_ascii_digit: (c) => c >= 48 && c <= 57, is_ascii_alphabetic: (c) => c >= 65 && c <= 90 || c >= 97 && c <= 122, is_ascii_alphanumeric: (c) => c >= 48 && c <= 57 || c >= 65 && c <= 90 || c >= 97 && c <= 122,
  starts_with: (f, list, front) => same(list.slice(0, front.length), front),
  'fold-Stat5': foldByScript('stat'), 'fold-Expr5': foldByScript('expr'),
  ...Object.fromEntries(treeNames.map((type) => [`fold-${type}`, foldByTree(type)])),
  'fold-CoreExpr': foldBy('expr'), 'fold-CoreLink': foldBy('link'), 'fold-CoreStat': foldBy('stat'), 'fold-CoreCase': foldBy('caseOf'),
};

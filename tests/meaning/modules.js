// The modules of a program as the linked graph of trees of es6_ast, from acorn's trees: a struct is a record by field, a variant a tag with its values.
'use strict';
const posix = require('path').posix;
const acorn = require('internal/deps/acorn/acorn/dist/acorn');

const variant = (t, ...a) => ({ t, a });
const none = variant('None');
const some = (x) => variant('Some', x);
const perhaps = (f, x) => x === null || x === undefined ? none : some(f(x));
const bytes = (text) => [...Buffer.from(text, 'utf8')];
const units = (text) => Array.from({ length: text.length }, (_, i) => text.charCodeAt(i));
const span = (node) => ({ begin: node.start, end: node.end });
const identifier = (node) => ({ span: span(node), name: bytes(node.name) });
const words = { '||': 'Or', '&&': 'And', '|': 'BitOr', '^': 'BitXor', '&': 'BitAnd', '==': 'Equal', '!=': 'NotEqual', '===': 'Same', '!==': 'NotSame', '<': 'Less', '>': 'Greater', '<=': 'AtMost', '>=': 'AtLeast', instanceof: 'InstanceOf', in: 'In', '<<': 'ShiftLeft', '>>': 'ShiftRight', '>>>': 'ShiftRightUnsigned', '+': 'Add', '-': 'Subtract', '*': 'Multiply', '/': 'Divide', '%': 'Remainder', '**': 'Power' };
const unary = { delete: 'Delete', void: 'Void', typeof: 'Typeof', '+': 'Plus', '-': 'Minus', '~': 'BitNot', '!': 'Not' };
const levels = [['||'], ['&&'], ['|'], ['^'], ['&'], ['==', '!=', '===', '!=='], ['<', '>', '<=', '>=', 'instanceof', 'in'], ['<<', '>>', '>>>'], ['+', '-'], ['*', '/', '%']];
const levelOf = (node) => /^(Binary|Logical)Expression$/.test(node.type) ? levels.findIndex((level) => level.includes(node.operator)) : -1;
const kindOf = (word) => variant({ var: 'Var', let: 'Let', const: 'Const' }[word]);

function literal(value) {
  if (value === null) return variant('Null');
  if (typeof value === 'boolean') return variant('Truth', value);
  return typeof value === 'number' ? variant('Integer', value) : variant('Text', units(value));
}
function key(node) {
  const { key: k } = node;
  if (node.computed) return variant('ComputedKey', span(k), expression(k));
  if (k.type === 'Identifier') return variant('WordKey', span(k), bytes(k.name));
  return typeof k.value === 'string' ? variant('TextKey', span(k), units(k.value)) : variant('IntegerKey', span(k), k.value);
}
function method(node) {
  const { value } = node;
  const kind = node.kind === 'get' ? 'GetterMethod' : node.kind === 'set' ? 'SetterMethod' : value.generator ? 'GeneratorMethod' : 'PlainMethod';
  return { span: span(node), kind: variant(kind), key: key(node), function: functionOf(value) };
}
function property(node) {
  if (node.method || node.kind !== 'init') return variant('Defined', method(node));
  return node.shorthand ? variant('Shorthand', span(node), bytes(node.key.name)) : variant('Plain', span(node), key(node), expression(node.value));
}
const functionOf = (node) => ({ span: span(node), is_generator: node.generator, name: perhaps(identifier, node.id), parameters: node.params.map(parameter), body: node.body.body.map(statement) });
const block = (node) => ({ span: span(node), statements: node.body.map(statement) });
const arrow = (node) => ({ span: span(node), parameters: node.params.map(parameter), body: node.body.type === 'BlockStatement' ? variant('BlockBody', block(node.body)) : variant('ValueBody', expression(node.body)) });
const member = (node) => ({ span: span(node), is_static: node.static, method: method(node) });
const classOf = (node) => ({ span: span(node), name: perhaps(identifier, node.id), heritage: perhaps(expression, node.superClass), members: node.body.body.map(member) });
const argument = (node) => node.type === 'SpreadElement' ? variant('Spread', span(node), expression(node.argument)) : variant('Single', expression(node));
const stretch = (quasi) => ({ span: span(quasi), cooked: units(quasi.value.cooked), raw: units(quasi.value.raw) });
function template(node) {
  const [first, ...rest] = node.quasis;
  return { span: span(node), first: stretch(first), rest: rest.map((quasi, i) => ({ value: expression(node.expressions[i]), after: stretch(quasi) })) };
}
const isSuper = (node) => node !== undefined && node.type === 'Super';
// accesses and calls of one chain, from its head
function chain(node, links) {
  if (node.type === 'MemberExpression' && !isSuper(node.object)) {
    const link = node.computed ? variant('Index', span(node), expression(node.property)) : variant('Member', span(node), identifier(node.property));
    return chain(node.object, [link, ...links]);
  }
  if (node.type === 'CallExpression' && !isSuper(node.callee)) return chain(node.callee, [variant('Call', span(node), node.arguments.map(argument)), ...links]);
  if (node.type === 'TaggedTemplateExpression') return chain(node.tag, [variant('Tagged', template(node.quasi)), ...links]);
  return { head: expression(node), links };
}
function chained(node) {
  const { head, links } = chain(node, []);
  return variant('Chain', span(node), head, links);
}
function binary(node) {
  const level = levelOf(node), rest = [];
  let first = node;
  for (; levelOf(first) === level; first = first.left) rest.unshift({ operator: variant(words[first.operator]), value: expression(first.right) });
  return variant('Binary', span(node), expression(first), rest);
}
function expression(node) {
  switch (node.type) {
    case 'Identifier': return variant('Name', span(node), bytes(node.name));
    case 'Literal': return variant('Literal', span(node), literal(node.value));
    case 'ThisExpression': return variant('This', span(node));
    case 'ParenthesizedExpression': return variant('Group', span(node), expression(node.expression));
    case 'TemplateLiteral': return variant('Template', template(node));
    case 'ArrayExpression': return variant('ArrayList', span(node), node.elements.map((e) => e === null ? variant('Hole') : variant('Present', argument(e))), false);
    case 'ObjectExpression': return variant('ObjectList', span(node), node.properties.map(property));
    case 'FunctionExpression': return variant('Function', functionOf(node));
    case 'ArrowFunctionExpression': return variant('Arrow', arrow(node));
    case 'ClassExpression': return variant('Class', classOf(node));
    case 'MemberExpression':
      if (!isSuper(node.object)) return chained(node);
      return node.computed ? variant('SuperIndex', span(node), expression(node.property)) : variant('SuperMember', span(node), identifier(node.property));
    case 'CallExpression': return isSuper(node.callee) ? variant('SuperCall', span(node), node.arguments.map(argument)) : chained(node);
    case 'TaggedTemplateExpression': return chained(node);
    case 'MetaProperty': return variant('NewTarget', span(node));
    case 'NewExpression': return variant('New', span(node), expression(node.callee), node.arguments.map(argument));
    case 'UpdateExpression': return variant('Update', span(node), variant((node.operator === '++' ? 'Increment' : 'Decrement') + (node.prefix ? 'Before' : 'After')), expression(node.argument));
    case 'UnaryExpression': return variant('Unary', span(node), variant(unary[node.operator]), expression(node.argument));
    case 'BinaryExpression': case 'LogicalExpression':
      return node.operator === '**' ? variant('Power', span(node), expression(node.left), expression(node.right)) : binary(node);
    case 'ConditionalExpression': return variant('Conditional', span(node), expression(node.test), expression(node.consequent), expression(node.alternate));
    case 'AssignmentExpression': {
      const operator = node.operator.slice(0, -1);
      return variant('Assign', span(node), variant(operator === '' ? 'Assign' : words[operator] + 'Assign'), pattern(node.left), expression(node.right));
    }
    case 'SequenceExpression': {
      const [first, ...rest] = node.expressions.map(expression);
      return variant('Sequence', span(node), first, rest);
    }
    case 'YieldExpression': return node.delegate ? variant('Delegate', span(node), expression(node.argument)) : variant('Yield', span(node), perhaps(expression, node.argument));
  }
  throw new Error(`no tree of ${node.type}`);
}
function pattern(node) {
  if (node.type === 'ArrayPattern') return variant('ArrayPattern', span(node), node.elements.map(arrayPart));
  if (node.type === 'ObjectPattern') return variant('ObjectPattern', span(node), node.properties.map(objectPart));
  return variant('Target', expression(node));
}
const part = (node) => node.type === 'AssignmentPattern' ? { span: span(node), pattern: pattern(node.left), default: some(expression(node.right)) } : { span: span(node), pattern: pattern(node), default: none };
function arrayPart(node) {
  if (node === null) return variant('SkippedPart');
  return node.type === 'RestElement' ? variant('RestPart', span(node), pattern(node.argument)) : variant('SinglePart', part(node));
}
const objectPart = (node) => node.shorthand ? variant('NamedPart', part(node.value)) : variant('KeyedPart', span(node), key(node), part(node.value));
const parameter = (node) => node.type === 'RestElement' ? variant('RestParameter', span(node), pattern(node.argument)) : variant('SingleParameter', part(node));
const declarator = (node) => ({ span: span(node), pattern: pattern(node.id), default: perhaps(expression, node.init) });
function ifStatement(node) {
  const conditions = [];
  let last = node;
  for (;;) {
    conditions.push({ span: span(last), test: expression(last.test), body: statement(last.consequent) });
    if (last.alternate === null || last.alternate.type !== 'IfStatement') break;
    last = last.alternate;
  }
  return variant('If', span(node), conditions[0], conditions.slice(1), perhaps(statement, last.alternate));
}
function forFirst(node) {
  if (node === null) return variant('NoFirst');
  return node.type === 'VariableDeclaration' ? variant('FirstVariables', span(node), kindOf(node.kind), node.declarations.map(declarator)) : variant('FirstExpression', expression(node));
}
const forTarget = (node) => node.type === 'VariableDeclaration' ? variant('Declared', span(node), kindOf(node.kind), pattern(node.declarations[0].id)) : variant('Assigned', pattern(node));
function statement(node) {
  switch (node.type) {
    case 'BlockStatement': return variant('Block', block(node));
    case 'VariableDeclaration': return variant('Variables', span(node), kindOf(node.kind), node.declarations.map(declarator));
    case 'EmptyStatement': return variant('Empty', span(node));
    case 'ExpressionStatement': return variant('Expression', span(node), expression(node.expression));
    case 'IfStatement': return ifStatement(node);
    case 'DoWhileStatement': return variant('DoWhile', span(node), statement(node.body), expression(node.test));
    case 'WhileStatement': return variant('While', span(node), expression(node.test), statement(node.body));
    case 'ForStatement': return variant('For', span(node), forFirst(node.init), perhaps(expression, node.test), perhaps(expression, node.update), statement(node.body));
    case 'ForOfStatement': return variant('ForOf', span(node), forTarget(node.left), expression(node.right), statement(node.body));
    case 'ContinueStatement': return variant('Continue', span(node), perhaps(identifier, node.label));
    case 'BreakStatement': return variant('Break', span(node), perhaps(identifier, node.label));
    case 'ReturnStatement': return variant('Return', span(node), perhaps(expression, node.argument));
    case 'SwitchStatement': return variant('Switch', span(node), expression(node.discriminant), node.cases.map((c) => ({ span: span(c), test: perhaps(expression, c.test), body: c.consequent.map(statement) })));
    case 'LabeledStatement': return variant('Labelled', span(node), identifier(node.label), statement(node.body));
    case 'ThrowStatement': return variant('Throw', span(node), expression(node.argument));
    case 'TryStatement': return variant('Try', span(node), block(node.block), perhaps((h) => ({ span: span(h), parameter: pattern(h.param), body: block(h.body) }), node.handler), perhaps(block, node.finalizer));
    case 'DebuggerStatement': return variant('Debugger', span(node));
    case 'FunctionDeclaration': return variant('FunctionDeclaration', functionOf(node));
    case 'ClassDeclaration': return variant('ClassDeclaration', classOf(node));
  }
  throw new Error(`no tree of ${node.type}`);
}
const specifier = (node) => ({ span: span(node), text: units(node.value) });
const importName = (node) => ({ span: span(node), imported: identifier(node.imported), local: identifier(node.local) });
function importOf(node) {
  const of = (type) => node.specifiers.filter((s) => s.type === type);
  const [byDefault] = of('ImportDefaultSpecifier'), [space] = of('ImportNamespaceSpecifier'), listed = of('ImportSpecifier');
  const names = space ? variant('Namespace', identifier(space.local)) : listed.length > 0 ? variant('Listed', listed.map(importName)) : variant('NoNames');
  return variant('Import', span(node), byDefault ? some(identifier(byDefault.local)) : none, names, specifier(node.source));
}
function defaultExport(node) {
  if (node.type === 'FunctionDeclaration') return variant('DefaultFunction', functionOf(node));
  return node.type === 'ClassDeclaration' ? variant('DefaultClass', classOf(node)) : variant('DefaultValue', expression(node));
}
function item(node) {
  switch (node.type) {
    case 'ImportDeclaration': return importOf(node);
    case 'ExportAllDeclaration': return variant('ExportAll', span(node), specifier(node.source));
    case 'ExportDefaultDeclaration': return variant('ExportDefault', span(node), span(node), defaultExport(node.declaration));
    case 'ExportNamedDeclaration':
      if (node.declaration) return variant('ExportDeclaration', span(node), statement(node.declaration));
      return variant('ExportNames', span(node), node.specifiers.map((s) => ({ span: span(s), local: identifier(s.local), exported: identifier(s.exported) })), perhaps(specifier, node.source));
    default: return variant('Statement', statement(node));
  }
}

// ---- graphs: modules in load order, and where the names end that they want

function loaded(sources) {
  const modules = [], numbers = new Map();
  (function load(path) {
    if (numbers.has(path)) return;
    numbers.set(path, modules.length);
    const tree = acorn.parse(sources[path], { ecmaVersion: 7, sourceType: 'module', preserveParens: true });
    const module = { path, body: tree.body, requests: [], items: tree.body.map(item), end: tree.end };
    modules.push(module);
    for (const { source } of tree.body) {
      if (!source || module.requests.some((r) => r.text === source.value)) continue;
      const to = source.value === 'host' ? null : posix.join(posix.dirname(path), source.value);
      if (to !== null) load(to);
      module.requests.push({ text: source.value, at: source.start, to });
    }
  })('main.js');
  return { modules, numbers };
}
const boundBy = (p) => !p ? [] : p.type === 'Identifier' ? [p.name] : p.type === 'ArrayPattern' ? p.elements.flatMap(boundBy) : p.type === 'ObjectPattern' ? p.properties.flatMap((q) => boundBy(q.value)) : boundBy(p.left || p.argument);
const isNamed = (d) => /^(Function|Class)Declaration$/.test(d.type) && d.id;
const declaredNames = (d) => d.type === 'VariableDeclaration' ? d.declarations.flatMap((x) => boundBy(x.id)) : [d.id.name];
const importedName = (s) => s.type === 'ImportDefaultSpecifier' ? 'default' : s.imported.name;
// the endings of a name of a module, by all paths
function endsOf({ modules, numbers }, hosts) {
  const tables = modules.map(({ path, body }) => {
    const imports = new Map(), exports = new Map(), stars = [];
    const from = (source, name) => source.value === 'host' ? { host: name } : { home: numbers.get(posix.join(posix.dirname(path), source.value)), name };
    for (const node of body) if (node.type === 'ImportDeclaration') for (const s of node.specifiers) if (s.type !== 'ImportNamespaceSpecifier') imports.set(s.local.name, from(node.source, importedName(s)));
    for (const node of body) {
      if (node.type === 'ExportAllDeclaration') stars.push(from(node.source).home);
      else if (node.type === 'ExportDefaultDeclaration') exports.set('default', { own: isNamed(node.declaration) ? node.declaration.id.name : '*default*' });
      else if (node.type === 'ExportNamedDeclaration' && node.declaration) for (const name of declaredNames(node.declaration)) exports.set(name, { own: name });
      else if (node.type === 'ExportNamedDeclaration') for (const s of node.specifiers) exports.set(s.exported.name, node.source ? from(node.source, s.local.name) : imports.get(s.local.name) || { own: s.local.name });
    }
    return { from, exports, stars };
  });
  const ends = (to, seen = new Set()) => {
    if (to.host !== undefined) return [`host ${hosts.indexOf(to.host)}`];
    const place = `${to.home} ${to.name}`;
    if (seen.has(place)) return [];
    seen.add(place);
    const { exports, stars } = tables[to.home], found = exports.get(to.name);
    if (found) return found.own !== undefined ? [`${to.home} ${found.own}`] : ends(found, seen);
    return to.name === 'default' ? [] : stars.flatMap((home) => ends({ home, name: to.name }, seen));
  };
  return (number, source, name) => {
    const all = [...new Set(ends(tables[number].from(source, name)))];
    if (all.length !== 1) throw new Error(`${name} ends at ${all.length} places`);
    const [home, local] = all[0].split(' ');
    return home === 'host' ? variant('Host', Number(local)) : variant('Local', Number(home), bytes(local));
  };
}
// the graph of these files
function graphOf(sources, hosts) {
  const graph = loaded(sources), ends = endsOf(graph, hosts);
  const endings = ({ body }, number) => body.flatMap((node) => {
    if (node.type === 'ImportDeclaration') return node.specifiers.filter((s) => s.type !== 'ImportNamespaceSpecifier').map((s) => ends(number, node.source, importedName(s)));
    return node.type === 'ExportNamedDeclaration' && node.source ? node.specifiers.map((s) => ends(number, node.source, s.local.name)) : [];
  });
  return { modules: graph.modules.map((m, number) => ({
    path: bytes(m.path), lines: [], tree: { span: { begin: 0, end: m.end }, items: m.items },
    requests: m.requests.map((r) => ({ at: r.at, specifier: units(r.text), module: r.to === null ? none : some(graph.numbers.get(r.to)) })), endings: endings(m, number),
  })) };
}
module.exports = { graphOf };

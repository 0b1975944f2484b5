// A script's text as the tree of scripts, by acorn, and the text of the helpers.
'use strict';
const fs = require('fs');
const path = require('path');
const acorn = require('internal/deps/acorn/acorn/dist/acorn');

const variant = (t, ...a) => ({ t, a });
const none = variant('None');
const perhaps = (f, x) => x === null || x === undefined ? none : variant('Some', f(x));
const bytes = (text) => [...Buffer.from(text, 'utf8')];
const units = (text) => Array.from({ length: text.length }, (_, i) => text.charCodeAt(i));
const span = (node) => ({ begin: node.start, end: node.end });
const identifier = (node) => ({ span: span(node), name: bytes(node.name) });
const binary = { '||': 'Or', '&&': 'And', '|': 'BitOr', '^': 'BitXor', '&': 'BitAnd', '==': 'Equal', '!=': 'NotEqual', '===': 'Same', '!==': 'NotSame', '<': 'Less', '>': 'Greater', '<=': 'AtMost', '>=': 'AtLeast', instanceof: 'InstanceOf', in: 'In', '<<': 'ShiftLeft', '>>': 'ShiftRight', '>>>': 'ShiftRightUnsigned', '+': 'Add', '-': 'Subtract', '*': 'Multiply', '/': 'Divide', '%': 'Remainder' };
const unary = { delete: 'Delete', void: 'Void', typeof: 'Typeof', '+': 'Plus', '-': 'Minus', '~': 'BitNot', '!': 'Not' };
const compound = { '=': 'Assign', '*=': 'MultiplyAssign', '/=': 'DivideAssign', '%=': 'RemainderAssign', '+=': 'AddAssign', '-=': 'SubtractAssign', '<<=': 'ShiftLeftAssign', '>>=': 'ShiftRightAssign', '>>>=': 'ShiftRightUnsignedAssign', '&=': 'BitAndAssign', '^=': 'BitXorAssign', '|=': 'BitOrAssign' };

function literal(value) {
  if (value === null) return variant('Null');
  if (typeof value === 'boolean') return variant('Truth', value);
  return typeof value === 'number' ? variant('Integer', value) : variant('Text', units(value));
}
function key(node) {
  const { key: k } = node;
  const own = k.type === 'Identifier' ? variant('WordKey', bytes(k.name)) : typeof k.value === 'number' ? variant('IntegerKey', k.value) : variant('TextKey', units(k.value));
  return { span: span(k), key: own };
}
const functionOf = (node) => ({ span: span(node), name: perhaps(identifier, node.id), parameters: node.params.map(identifier), body: node.body.body.map(statement) });
function property(node) {
  if (node.kind === 'init') return variant('Plain', span(node), key(node), expression(node.value));
  return variant(node.kind === 'get' ? 'Getter' : 'Setter', span(node), key(node), functionOf(node.value));
}
// accesses and calls of one chain, from its head
function chain(node, links) {
  if (node.type === 'MemberExpression') {
    return chain(node.object, [node.computed ? variant('Index', span(node), expression(node.property)) : variant('Member', span(node), bytes(node.property.name)), ...links]);
  }
  if (node.type === 'CallExpression') return chain(node.callee, [variant('Call', span(node), node.arguments.map(expression), none), ...links]);
  return { head: expression(node), links };
}
function expression(node) {
  const at = span(node);
  switch (node.type) {
    case 'ThisExpression': return variant('This', at);
    case 'Identifier': return variant('Name', at, bytes(node.name));
    case 'Literal': return variant('Literal', at, literal(node.value));
    case 'ArrayExpression': return variant('ArrayList', at, node.elements.map((x) => x === null ? variant('Hole') : variant('Element', expression(x))));
    case 'ObjectExpression': return variant('ObjectList', at, node.properties.map(property));
    case 'FunctionExpression': return variant('Function', functionOf(node));
    case 'MemberExpression': case 'CallExpression': { const { head, links } = chain(node, []); return variant('Chain', at, head, links); }
    case 'NewExpression': return variant('New', at, expression(node.callee), node.arguments.map(expression));
    case 'UpdateExpression': return variant('Update', at, variant((node.operator === '++' ? 'Increment' : 'Decrement') + (node.prefix ? 'Before' : 'After')), expression(node.argument));
    case 'UnaryExpression': return variant('Unary', at, variant(unary[node.operator]), expression(node.argument));
    case 'BinaryExpression': case 'LogicalExpression': return variant('Binary', at, expression(node.left), [{ operator: variant(binary[node.operator]), value: expression(node.right) }]);
    case 'ConditionalExpression': return variant('Conditional', at, expression(node.test), expression(node.consequent), expression(node.alternate));
    case 'AssignmentExpression': return variant('Assign', at, variant(compound[node.operator]), expression(node.left), expression(node.right));
    case 'SequenceExpression': return variant('Sequence', at, expression(node.expressions[0]), node.expressions.slice(1).map(expression));
  }
  throw new Error(`no expression of scripts: ${node.type}`);
}
const block = (node) => ({ span: span(node), statements: node.body.map(statement) });
const declared = (node) => ({ span: span(node), name: identifier(node.id), init: perhaps(expression, node.init) });
function forFirst(node) {
  if (node === null) return variant('NoFirst');
  return node.type === 'VariableDeclaration' ? variant('FirstVar', node.declarations.map(declared)) : variant('FirstExpression', expression(node));
}
function choice(node) {
  const conditions = [];
  let at = node;
  for (;;) {
    conditions.push({ span: span(at), test: expression(at.test), body: statement(at.consequent) });
    if (!at.alternate || at.alternate.type !== 'IfStatement') break;
    at = at.alternate;
  }
  return variant('If', span(node), conditions[0], conditions.slice(1), perhaps(statement, at.alternate));
}
function statement(node) {
  const at = span(node);
  switch (node.type) {
    case 'VariableDeclaration': return variant('Var', at, node.declarations.map(declared));
    case 'FunctionDeclaration': return variant('FunctionDeclaration', functionOf(node));
    case 'BlockStatement': return variant('Block', block(node));
    case 'EmptyStatement': return variant('Empty', at);
    case 'ExpressionStatement': return variant('Expression', at, expression(node.expression));
    case 'IfStatement': return choice(node);
    case 'DoWhileStatement': return variant('DoWhile', at, statement(node.body), expression(node.test));
    case 'WhileStatement': return variant('While', at, expression(node.test), statement(node.body));
    case 'ForStatement': return variant('For', at, forFirst(node.init), perhaps(expression, node.test), perhaps(expression, node.update), statement(node.body));
    case 'ContinueStatement': return variant('Continue', at, perhaps(identifier, node.label));
    case 'BreakStatement': return variant('Break', at, perhaps(identifier, node.label));
    case 'ReturnStatement': return variant('Return', at, perhaps(expression, node.argument));
    case 'SwitchStatement': return variant('Switch', at, expression(node.discriminant), node.cases.map((c) => ({ span: span(c), test: perhaps(expression, c.test), body: c.consequent.map(statement) })));
    case 'LabeledStatement': return variant('Labelled', at, identifier(node.label), statement(node.body));
    case 'ThrowStatement': return variant('Throw', at, expression(node.argument));
    case 'TryStatement': return variant('Try', at, block(node.block), perhaps((h) => ({ span: span(h), parameter: identifier(h.param), body: block(h.body) }), node.handler), perhaps(block, node.finalizer));
    case 'DebuggerStatement': return variant('Debugger', at);
  }
  throw new Error(`no statement of scripts: ${node.type}`);
}
function scriptOf(text) {
  const tree = acorn.parse(text, { ecmaVersion: 5 });
  return { span: span(tree), statements: tree.body.map(statement) };
}
function helpers() {
  const source = fs.readFileSync(path.join(__dirname, '..', '..', 'crates', 'helpers', 'src', 'text.rt'), 'utf8');
  const text = /const TEXT: &\[u8\] = b"((?:[^"\\]|\\.)*)";/s.exec(source)[1].replace(/\\(.)/gs, (_, c) => c === 'n' ? '\n' : c === '\n' ? '' : c);
  return scriptOf(text).statements.slice(1);
}
module.exports = { scriptOf, helpers };

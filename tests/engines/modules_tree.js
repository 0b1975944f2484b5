// Acorn's tree as the lines that module_lines prints: a node before its parts, which stand in text order, each with its begin and
// end in bytes. The tree is a module, or else what the goal names.
'use strict';

// the byte offset of each 16-bit unit
function byteOffsets(text) {
  const offsets = new Uint32Array(text.length + 1);
  let offset = 0;
  for (let i = 0; i < text.length; i++) {
    offsets[i] = offset;
    const unit = text.charCodeAt(i);
    if (unit < 0x80) offset += 1;
    else if (unit < 0x800) offset += 2;
    else if (unit >= 0xd800 && unit < 0xdc00) { offsets[i + 1] = offset; offset += 4; i++; }
    else offset += 3;
  }
  offsets[text.length] = offset;
  return offsets;
}

const hex = (text) => [...Array(text.length).keys()].map((i) => text.charCodeAt(i).toString(16).padStart(4, '0')).join('');
const levels = [['||'], ['&&'], ['|'], ['^'], ['&'], ['==', '!=', '===', '!=='], ['<', '>', '<=', '>=', 'instanceof', 'in'], ['<<', '>>', '>>>'], ['+', '-'], ['*', '/', '%']];
const levelOf = (node) => (/^(Binary|Logical)Expression$/.test(node.type) ? levels.findIndex((level) => level.includes(node.operator)) : -1);

function linesOf(text, tree, tokens, goal = 'module') {
  const offsets = byteOffsets(text);
  const lines = [];
  const put = (kind, start, end, more) => lines.push(`${kind} ${offsets[start]} ${offsets[end]}${more === undefined ? '' : ' ' + more}`);
  const node = (kind, n, more) => put(kind, n.start, n.end, more);
  // the first token that begins at or behind a place
  const tokenAt = (place) => {
    let low = 0, high = tokens.length;
    while (low < high) { const middle = low + high >> 1; if (tokens[middle].start < place) low = middle + 1; else high = middle; }
    return low;
  };

  const identifier = (n) => node('Identifier', n, n.name);
  const each = (list, show) => { for (const part of list) show(part); };

  function literal(n) {
    if (typeof n.value === 'string') node('Literal', n, 'text ' + hex(n.value));
    else node('Literal', n, String(n.value));
  }
  function template(n) {
    node('Template', n);
    n.quasis.forEach((part, i) => {
      put('Stretch', part.start - 1, part.end + (part.tail ? 1 : 2), hex(part.value.cooked) + ' ' + hex(part.value.raw));
      if (!part.tail) expression(n.expressions[i]);
    });
  }
  function argument(n) {
    if (n.type === 'SpreadElement') { node('Spread', n); expression(n.argument); } else expression(n);
  }
  function key(n) {
    if (n.computed) { put('ComputedKey', tokens[tokenAt(n.key.start) - 1].start, tokens[tokenAt(n.key.end)].end); expression(n.key); }
    else if (n.key.type === 'Identifier') node('WordKey', n.key, n.key.name);
    else if (typeof n.key.value === 'string') node('TextKey', n.key, hex(n.key.value));
    else node('IntegerKey', n.key, String(n.key.value));
  }
  function method(n, start) {
    const before = tokens[tokenAt(n.computed ? tokens[tokenAt(n.key.start) - 1].start : n.key.start) - 1];
    const word = before && before.start >= start ? text.slice(before.start, before.end) : '';
    put('Method', start, n.end, word === '*' ? 'generator' : word || 'method');
    key(n);
    functionOf(n.value);
  }
  function property(n) {
    if (n.kind !== 'init' || n.method) method(n, n.start);
    else if (!n.shorthand) { node('Plain', n); key(n); expression(n.value); }
    else if (n.value.type === 'AssignmentPattern') { node('Initialized', n); identifier(n.key); expression(n.value.right); }
    else node('Shorthand', n, n.key.name);
  }
  function functionOf(n) {
    node('Function', n, n.generator ? 'generator' : 'plain');
    if (n.id) identifier(n.id);
    each(n.params, parameter);
    each(n.body.body, statement);
  }
  function classOf(n) {
    node('Class', n);
    if (n.id) identifier(n.id);
    if (n.superClass) expression(n.superClass);
    for (const member of n.body.body) {
      node('ClassMember', member, member.static ? 'static' : 'plain');
      method(member, member.static ? tokens[tokenAt(member.start) + 1].start : member.start);
    }
  }
  function chain(n) {
    const links = [];
    let head = n;
    const isLink = () => head.type === 'MemberExpression' && head.object.type !== 'Super' || head.type === 'CallExpression' && head.callee.type !== 'Super' || head.type === 'TaggedTemplateExpression';
    while (isLink()) { links.unshift(head); head = head.object || head.callee || head.tag; }
    if (links.length === 0) { superOf(n); return; }
    node('Chain', n);
    expression(head);
    for (const link of links) {
      const start = tokens[tokenAt((link.object || link.callee || link.tag).end)].start;
      if (link.type === 'TaggedTemplateExpression') { node('Tagged', link.quasi); template(link.quasi); }
      else if (link.type === 'CallExpression') { put('Call', start, link.end); each(link.arguments, argument); }
      else if (link.computed) { put('Index', start, link.end); expression(link.property); }
      else { put('Member', start, link.end); identifier(link.property); }
    }
  }
  function superOf(n) {
    if (n.type === 'CallExpression') { node('SuperCall', n); each(n.arguments, argument); }
    else if (n.computed) { node('SuperIndex', n); expression(n.property); }
    else { node('SuperMember', n); identifier(n.property); }
  }
  function binary(n) {
    if (n.operator === '**') { node('Power', n); expression(n.left); expression(n.right); return; }
    const level = levelOf(n), rest = [];
    let first = n;
    while (levelOf(first) === level) { rest.unshift(first); first = first.left; }
    node('Binary', n);
    expression(first);
    for (const part of rest) { lines.push('Operand ' + part.operator); expression(part.right); }
  }
  function expression(n) {
    switch (n.type) {
      case 'Identifier': node('Name', n, n.name); break;
      case 'ThisExpression': node('This', n); break;
      case 'Literal': literal(n); break;
      case 'MetaProperty': node('NewTarget', n); break;
      case 'TemplateLiteral': template(n); break;
      case 'ArrayExpression': {
        const last = n.elements[n.elements.length - 1];
        node('ArrayList', n, last && tokens[tokenAt(n.end - 1) - 1].type.label === ',' ? 'comma' : 'plain');
        each(n.elements, (part) => { if (part) argument(part); else lines.push('Hole'); });
        break;
      }
      case 'ObjectExpression': node('ObjectList', n); each(n.properties, property); break;
      case 'FunctionExpression': functionOf(n); break;
      case 'ClassExpression': classOf(n); break;
      case 'ArrowFunctionExpression':
        node('Arrow', n);
        each(n.params, parameter);
        if (n.body.type === 'BlockStatement') statement(n.body); else expression(n.body);
        break;
      case 'MemberExpression': case 'CallExpression': case 'TaggedTemplateExpression': chain(n); break;
      case 'NewExpression': node('New', n); expression(n.callee); each(n.arguments, argument); break;
      case 'UpdateExpression': node('Update', n, n.prefix ? n.operator + 'x' : 'x' + n.operator); expression(n.argument); break;
      case 'UnaryExpression': node('Unary', n, n.operator); expression(n.argument); break;
      case 'BinaryExpression': case 'LogicalExpression': binary(n); break;
      case 'ConditionalExpression': node('Conditional', n); each([n.test, n.consequent, n.alternate], expression); break;
      case 'AssignmentExpression': node('Assign', n, n.operator); pattern(n.left); expression(n.right); break;
      case 'SequenceExpression': node('Sequence', n); each(n.expressions, expression); break;
      case 'YieldExpression': node(n.delegate ? 'Delegate' : 'Yield', n); if (n.argument) expression(n.argument); break;
      case 'ParenthesizedExpression': node('Group', n); expression(n.expression); break;
      default: throw new Error('modules: no line for ' + n.type);
    }
  }

  function pattern(n) {
    if (n.type === 'ArrayPattern') { node('ArrayPattern', n); each(n.elements, arrayPart); }
    else if (n.type === 'ObjectPattern') { node('ObjectPattern', n); each(n.properties, objectPart); }
    else expression(n);
  }
  function part(n) {
    node('Part', n);
    pattern(n.type === 'AssignmentPattern' ? n.left : n);
    if (n.type === 'AssignmentPattern') expression(n.right);
  }
  function arrayPart(n) {
    if (!n) lines.push('SkippedPart');
    else if (n.type === 'RestElement') { node('RestPart', n); pattern(n.argument); }
    else part(n);
  }
  function objectPart(n) {
    if (n.shorthand) part(n.value);
    else { node('KeyedPart', n); key(n); part(n.value); }
  }
  function parameter(n) {
    if (n.type === 'RestElement') { node('RestParameter', n); pattern(n.argument); } else part(n);
  }

  function variables(kind, n) {
    node(kind, n, n.kind);
    for (const declared of n.declarations) {
      node('Part', declared);
      pattern(declared.id);
      if (declared.init) expression(declared.init);
    }
  }
  function ifOf(n) {
    node('If', n);
    for (let last = n; ; last = last.alternate) {
      put('Condition', last.start, last.consequent.end);
      expression(last.test);
      statement(last.consequent);
      if (!last.alternate) break;
      if (last.alternate.type !== 'IfStatement') { lines.push('Else'); statement(last.alternate); break; }
    }
  }
  const marked = (word, n) => { if (n) { lines.push(word); expression(n); } };
  function forOf(n) {
    node('ForOf', n);
    if (n.left.type === 'VariableDeclaration') { node('Declared', n.left, n.left.kind); pattern(n.left.declarations[0].id); } else pattern(n.left);
    expression(n.right);
    statement(n.body);
  }
  function forStatement(n) {
    node('For', n);
    if (n.init && n.init.type === 'VariableDeclaration') variables('FirstVariables', n.init); else marked('FirstExpression', n.init);
    marked('Test', n.test);
    marked('Step', n.update);
    statement(n.body);
  }
  function tryOf(n) {
    node('Try', n);
    statement(n.block);
    if (n.handler) { node('Catch', n.handler); pattern(n.handler.param); statement(n.handler.body); }
    if (n.finalizer) { lines.push('Finally'); statement(n.finalizer); }
  }
  function statement(n) {
    switch (n.type) {
      case 'BlockStatement': node('Block', n); each(n.body, statement); break;
      case 'VariableDeclaration': variables('Variables', n); break;
      case 'EmptyStatement': node('Empty', n); break;
      case 'DebuggerStatement': node('Debugger', n); break;
      case 'ExpressionStatement': node('Expression', n); expression(n.expression); break;
      case 'IfStatement': ifOf(n); break;
      case 'DoWhileStatement': node('DoWhile', n); statement(n.body); expression(n.test); break;
      case 'WhileStatement': node('While', n); expression(n.test); statement(n.body); break;
      case 'ForStatement': forStatement(n); break;
      case 'ForOfStatement': forOf(n); break;
      case 'ContinueStatement': node('Continue', n); if (n.label) identifier(n.label); break;
      case 'BreakStatement': node('Break', n); if (n.label) identifier(n.label); break;
      case 'ReturnStatement': node('Return', n); if (n.argument) expression(n.argument); break;
      case 'ThrowStatement': node('Throw', n); expression(n.argument); break;
      case 'SwitchStatement':
        node('Switch', n);
        expression(n.discriminant);
        for (const clause of n.cases) { node('Case', clause); marked('Test', clause.test); each(clause.consequent, statement); }
        break;
      case 'LabeledStatement': node('Labelled', n); identifier(n.label); statement(n.body); break;
      case 'TryStatement': tryOf(n); break;
      case 'FunctionDeclaration': functionOf(n); break;
      case 'ClassDeclaration': classOf(n); break;
      default: item(n);
    }
  }

  const specifier = (n) => node('Specifier', n, hex(n.value));
  function imported(n) {
    if (n.type === 'ImportDefaultSpecifier') { lines.push('Default'); identifier(n.local); }
    else if (n.type === 'ImportNamespaceSpecifier') { lines.push('Namespace'); identifier(n.local); }
    else { node('ImportName', n); identifier(n.imported); identifier(n.local); }
  }
  function item(n) {
    switch (n.type) {
      case 'ImportDeclaration': node('Import', n); each(n.specifiers, imported); specifier(n.source); break;
      case 'ExportAllDeclaration': node('ExportAll', n); specifier(n.source); break;
      case 'ExportDefaultDeclaration': {
        const word = tokens[tokenAt(n.start) + 1];
        node('ExportDefault', n, offsets[word.start] + ' ' + offsets[word.end]);
        const { declaration } = n;
        if (declaration.type === 'FunctionDeclaration') functionOf(declaration);
        else if (declaration.type === 'ClassDeclaration') classOf(declaration);
        else expression(declaration);
        break;
      }
      case 'ExportNamedDeclaration':
        if (n.declaration) { node('ExportDeclaration', n); statement(n.declaration); break; }
        node('ExportNames', n);
        for (const name of n.specifiers) { node('ExportName', name); identifier(name.local); identifier(name.exported); }
        if (n.source) specifier(n.source);
        break;
      default: throw new Error('modules: no line for ' + n.type);
    }
  }

  function module(n) { put('Module', 0, text.length); each(n.body, statement); }
  const parameters = (list) => each(list, parameter);
  const shows = { module, expression, statement, pattern, parameters };
  shows[goal](tree);
  return lines;
}

module.exports = { linesOf, byteOffsets };

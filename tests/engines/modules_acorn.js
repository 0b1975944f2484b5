// What acorn, the parser inside node, says of a module in the grammar of the 6th edition without annex B, with `**`: the tree
// with its tokens and all early errors, or where it stops. Acorn stops at the first early error and knows later editions and
// annex B, so this parser notes early errors and goes on, and each place where it differs from the grammar is set right here.
'use strict';
const acorn = require('internal/deps/acorn/acorn/dist/acorn');
const { tokTypes } = acorn;
const lexicalName = 2;

// acorn's words for rows of table E; those of redeclarations don't say which of five it is
const rules = [
  [/has already been declared$/, [1, 2, 3, 5, 6]],
  [/^Argument name clash/, [4]],
  [/^Binding .* in strict mode/, [7]],
  [/^Assigning to .* in strict mode/, [8]],
  [/^Deleting local variable/, [9]],
  [/^Label .* is already declared/, [13]],
  [/^Yield expression cannot be a default value/, [16]],
  [/'super' keyword outside|^super\(\) call outside/, [17, 18]],
  [/^'new.target' can only be used/, [19]],
  [/^Duplicate constructor/, [20]],
  [/^Constructor can't/, [21]],
  [/static property named prototype/, [22]],
  [/^Duplicate export/, [23]],
  [/^Export '.*' is not defined/, [24]],
];
const lexical = /^(Unterminated (string|template|comment)|Unexpected character|Invalid number|Identifier directly|Expected number|Bad character escape|Octal|Legacy octal|Invalid Unicode|Invalid escape|Code point|Bad escape|Expecting Unicode|Numeric sep)/;

class Stop extends Error {
  constructor(kind, at, rule) { super(kind); Object.assign(this, { kind, at, rule }); }
}

// a LeftHandSideExpression
const isLeft = (node) => !/^(Arrow|Unary|Update|Binary|Logical|Conditional|Assignment|Sequence|Yield)/.test(node.type);

function bound(node, list) {
  if (!node) return list;
  if (node.type === 'Identifier') list.push(node.start);
  else if (node.type === 'AssignmentPattern') bound(node.left, list);
  else if (node.type === 'RestElement') bound(node.argument, list);
  else if (node.type === 'ArrayPattern') for (const part of node.elements) bound(part, list);
  else if (node.type === 'ObjectPattern') for (const part of node.properties) bound(part.value || part.argument, list);
  return list;
}

const copied = (node) => (Array.isArray(node) ? node.map(copied) : node === null || typeof node !== 'object' || node.regex ? node : Object.assign(Object.create(Object.getPrototypeOf(node)), Object.fromEntries(Object.entries(node).map(([key, value]) => [key, copied(value)]))));

class Parser extends acorn.Parser {
  constructor(options, input, startPos) {
    super(options, input, startPos);
    this.early = [];
    this.seen = options.onToken;
  }

  note(rules, at) { this.early.push({ rules, at }); }
  stop(at) { throw new Stop('Syntax', at); }

  raise(pos, message) {
    if (lexical.test(message)) throw new Stop('Lexical', pos);
    if (this.refined) { this.refined.push(this.misfitAt(pos, message)); return; }
    // what stands before an arrow is no list of parameters: the arrow is at fault
    if (this.isBinding || message === 'Parenthesized pattern') this.stop(this.lastTokStart);
    if (message === 'Comma is not permitted after the rest element') this.stop(pos === this.start ? pos : this.lastTokStart);
    if (message === "'with' in strict mode") throw new Stop('Outside', pos, 5);
    // annex B; and the initializers of shorthands are looked for in the tree, since acorn forgets some
    if (message === 'Redefinition of __proto__ property' || /^Shorthand property assignments/.test(message)) return;
    if (/^Illegal 'use strict'/.test(message)) { this.hasStrictDirective = true; return; }
    if (/^Unsyntactic/.test(message)) {
      const word = this.seen.findIndex((token) => token.start === pos);
      const next = this.seen[word + 1];
      if (next && next.type === tokTypes.name) this.note([14], next.start);
      else this.note([15], pos);
      return;
    }
    if (/^Constructor can't have get/.test(message)) this.accessor = this.seen[this.seen.findIndex((token) => token.start === pos) - 1].value;
    // the place is the name, and acorn names what stands before that of an accessor or a generator
    if (/^Duplicate constructor/.test(message) && /^(get|set|\*)/.test(this.input.slice(pos))) pos = this.seen[this.seen.findIndex((token) => token.start === pos) + 1].start;
    if (/rvalue$/.test(message)) { this.note([10], pos); return; }
    for (const [words, numbers] of rules) if (words.test(message)) { this.note(numbers, pos); return; }
    if (/^(Unexpected token|The only valid meta|Multiple default|'return' outside|'import' and 'export')/.test(message)) this.stop(pos);
    // here acorn names another place than the token with which nothing goes on
    if (/^(The keyword|Unexpected keyword|Cannot use|Complex binding|Illegal newline|Missing catch)/.test(message)) this.stop(this.start);
    throw new Error('modules: acorn says ' + message);
  }
  raiseRecoverable(pos, message) { this.raise(pos, message); }

  // `( )` and `( a , ...b )` are at fault where no arrow follows, or at once where none can
  unexpected(pos) {
    if (pos !== undefined && pos !== null && pos < this.start && /[).]/.test(this.input[pos]) && this.parentheses === 'arrow') pos = this.start;
    this.stop(pos === undefined || pos === null ? this.start : pos);
  }
  parseParenAndDistinguishExpression(canBeArrow, forInit) {
    const outer = this.parentheses;
    this.parentheses = canBeArrow ? 'arrow' : 'plain';
    const node = super.parseParenAndDistinguishExpression(canBeArrow, forInit);
    this.parentheses = outer;
    return node;
  }
  // the 6th edition binds a rest to a name alone
  parseRestBinding() {
    if (this.parentheses === 'plain') this.unexpected();
    const node = this.startNode();
    this.next();
    node.argument = this.parseIdent();
    return this.finishNode(node, 'RestElement');
  }

  // A reserved word is no name. It is at fault before the next token is read.
  parseIdent(liberal) {
    if (!liberal && this.type.keyword) this.unexpected();
    if (!liberal && this.type === tokTypes.name) this.checkUnreserved({ start: this.start, end: this.end, name: this.value });
    return super.parseIdent(liberal);
  }
  // where a declaration may stand `let` begins one, whatever follows
  isLet(context) { return !context && this.isContextual('let'); }

  parseStatement(context, topLevel, exports) {
    // A function behind a label is in the grammar, and an early error. Behind labels alone its name is declared (13.2.5, 13.13.6).
    if (this.type === tokTypes._function && context && /label$/.test(context)) {
      this.note([13], this.labelAt);
      return this.parseFunctionStatement(this.startNode(), false, context === 'label' && !this.isBeforeStar());
    }
    return super.parseStatement(context, topLevel, exports);
  }

  // A generator stands behind no label (13.13), which acorn finds out only of a function that isn't declared.
  isBeforeStar() {
    const gap = /(?:\s|\/\/.*|\/\*[^]*?\*\/)*/y;
    gap.lastIndex = this.end;
    return this.input[this.end + gap.exec(this.input)[0].length] === '*';
  }
  parseLabeledStatement(node, name, label, context) {
    const outer = this.labelAt;
    this.labelAt = label.start;
    const result = super.parseLabeledStatement(node, name, label, context);
    this.labelAt = outer;
    return result;
  }

  // a const without a value is in the grammar, and an early error
  parseVar(node, isFor, kind) {
    node.declarations = [];
    node.kind = kind;
    do {
      const part = this.startNode();
      this.parseVarId(part, kind);
      if (this.eat(tokTypes.eq)) part.init = this.parseMaybeAssign(isFor);
      else {
        const isHead = isFor && node.declarations.length === 0 && (this.type === tokTypes._in || this.isContextual('of'));
        if (part.id.type !== 'Identifier' && !isHead) this.unexpected();
        if (part.id.type === 'Identifier' && !isHead && kind === 'const') this.note([12], part.id.start);
        part.init = null;
      }
      node.declarations.push(this.finishNode(part, 'VariableDeclarator'));
    } while (this.eat(tokTypes.comma));
    return node;
  }
  parseForIn(node, first) {
    if (first.type === 'VariableDeclaration' ? first.declarations[0].init : !isLeft(first)) this.unexpected();
    if (this.type === tokTypes._in) throw new Stop('Outside', this.start, 1);
    return super.parseForIn(node, first);
  }

  // without annex B a catch parameter's name is no var name of the block
  parseCatchClauseParam() {
    const parameter = this.parseBindingAtom();
    this.enterScope(0);
    this.checkLValPattern(parameter, lexicalName);
    this.expect(tokTypes.parenR);
    return parameter;
  }

  // acorn doesn't look at the name of a class expression
  parseClassId(node, isStatement) {
    super.parseClassId(node, isStatement);
    if (!isStatement && node.id && /^(eval|arguments)$/.test(node.id.name)) this.note([7], node.id.start);
  }
  // of several exports of a name that isn't declared the first one counts
  checkLocalExport(id) { if (!Object.prototype.hasOwnProperty.call(this.undefinedExports, id.name)) super.checkLocalExport(id); }

  // acorn counts the parameters of an accessor once its body is read
  parseGetterSetter(property) {
    const kind = property.key.name;
    this.parsePropertyName(property);
    this.accessor = kind;
    property.value = this.parseMethod(false);
    property.kind = kind;
  }
  parseClassMethod(method, isGenerator, isAsync, allowsSuper) {
    if (method.kind === 'get' || method.kind === 'set') this.accessor = method.kind;
    return super.parseClassMethod(method, isGenerator, isAsync, allowsSuper);
  }
  parseBindingList(close, allowEmpty, allowTrailingComma, modifiers) {
    const [accessor, outer] = [this.accessor, this.parentheses];
    this.accessor = this.parentheses = null;
    let list = [];
    if (accessor === 'set') {
      if (this.type === tokTypes.parenR || this.type === tokTypes.ellipsis) this.unexpected();
      list = [this.parseAssignableListItem(modifiers)];
    }
    if (accessor) this.expect(close);
    else list = super.parseBindingList(close, allowEmpty, allowTrailingComma, modifiers);
    this.parentheses = outer;
    return list;
  }

  // An arrow's parameters were read as an expression first, in which its names seemed to be assigned.
  parseArrowExpression(node, parameters, isAsync, forInit) {
    const first = this.early.length;
    const result = super.parseArrowExpression(node, parameters, isAsync, forInit);
    const names = result.params.reduce((list, part) => bound(part, list), []);
    this.early = this.early.filter((early, i) => i >= first || early.rules[0] !== 8 || !names.includes(early.at));
    return result;
  }
  toAssignableList(list, isBinding) {
    const outer = this.isBinding;
    if (isBinding) this.isBinding = true;
    const result = super.toAssignableList(list, isBinding);
    this.isBinding = outer;
    return result;
  }

  // An arrow is no operand.
  parseExprOps(forInit, errors) {
    const node = super.parseExprOps(forInit, errors);
    if (node.type === 'ArrowFunctionExpression' && this.type === tokTypes.question) this.unexpected();
    return node;
  }
  parseExprSubscripts(errors, forInit) {
    const node = super.parseExprSubscripts(errors, forInit);
    if (node.type === 'ArrowFunctionExpression' && this.type === tokTypes.starstar) this.unexpected();
    return node;
  }
  // acorn ends an expression with a shorthand's initializer at once
  checkExpressionErrors(errors, isThrown) { return isThrown ? super.checkExpressionErrors(errors, isThrown) : false; }

  // the first part of a target that no pattern spells
  misfitAt(pos, message) {
    if (message !== 'Comma is not permitted after the rest element') return pos;
    const end = this.seen[this.seen.findIndex((token) => token.start === pos) - 1].end;
    const found = [];
    const look = (node) => {
      if (node === null || typeof node !== 'object') return;
      if (/^(SpreadElement|RestElement)$/.test(node.type) && node.end === end) found.push(node.start);
      for (const value of Object.values(node)) look(value);
    };
    look(this.target);
    return Math.min(...found);
  }
  toAssignable(node, isBinding, errors) {
    if (isBinding) {
      const isRest = /^(SpreadElement|RestElement)$/.test(node.type) && node.argument.type !== 'Identifier';
      if (isRest || node.type === 'ParenthesizedExpression') this.raise(node.start, 'Unexpected token');
      // an assignment before it made a pattern of it, in which acorn looks for members only later
      if (node.type === 'AssignmentPattern') this.toAssignable(node.left, isBinding);
      if (node.type === 'ArrayPattern') for (const part of node.elements) if (part) this.toAssignable(part, isBinding);
      if (node.type === 'ObjectPattern') for (const part of node.properties) this.toAssignable(part.value, isBinding);
      return super.toAssignable(node, isBinding, errors);
    }
    if (this.refined) return this.toPart(node, errors);
    if (!isLeft(node)) this.unexpected();
    this.refined = [];
    this.target = node;
    this.toPart(copied(node), errors);
    const misfits = this.refined;
    if (misfits.length === 0) node = this.toPart(node, errors);
    this.refined = null;
    if (misfits.length > 0) { this.note([10], Math.min(...misfits)); this.misfit = node; }
    return node;
  }
  toPart(node, errors) {
    const isOperator = node.type === 'AssignmentExpression' && node.operator !== '=';
    const isMethod = node.type === 'Property' && (node.kind !== 'init' || node.method);
    const isGroup = node.type === 'ParenthesizedExpression';
    if (isOperator || isMethod || isGroup && !this.isSimpleAssignTarget(node)) { this.refined.push(node.start); return node; }
    // of several spreads acorn looks at the last one alone
    if (node.type === 'ArrayExpression') for (const part of node.elements.slice(0, -1)) if (part && part.type === 'SpreadElement') this.refined.push(part.start);
    return isGroup ? node : super.toAssignable(node, false, errors);
  }
  checkLValPattern(node, binding, clashes) { if (node !== this.misfit) super.checkLValPattern(node, binding, clashes); }
  checkLValSimple(node, binding, clashes) {
    if (binding || this.isSimpleAssignTarget(node)) { super.checkLValSimple(node, binding, clashes); return; }
    const follows = this.type.isAssign || this.type === tokTypes.incDec && !this.canInsertSemicolon();
    if (!isLeft(node) && follows) this.unexpected();
    this.note([10], node.start);
  }

  // identifiers have no escapes in the profile
  readWord1() {
    const word = super.readWord1();
    if (this.containsEsc) throw new Stop('Lexical', this.start + this.input.slice(this.start).indexOf('\\'));
    return word;
  }
  // a regular expression and a number that the profile leaves out
  readRegexp() { return this.finishToken(tokTypes.regexp, null); }
  parseExprAtom(errors, forInit, forNew) {
    const isDivision = this.type === tokTypes.slash || this.type === tokTypes.assign && this.value === '/=';
    if (isDivision || this.type === tokTypes.regexp) throw new Stop('Outside', this.start, 2);
    if (this.type === tokTypes.num) {
      const digits = this.input.slice(this.start, this.end);
      if (!/^0[xob]/i.test(digits) && /[.e]/i.test(digits)) throw new Stop('Outside', this.start, 3);
      if (this.value > Number.MAX_SAFE_INTEGER) throw new Stop('Outside', this.start, 4);
    }
    // `new super ( )` is not in the grammar
    const isSuper = forNew && this.type === tokTypes._super;
    const node = super.parseExprAtom(errors, forInit, forNew);
    if (isSuper && this.type === tokTypes.parenL) this.unexpected();
    return node;
  }
}

// the directives of strict code in functions with parameters that aren't all names
function strictDirectives(node, list) {
  if (Array.isArray(node)) { for (const part of node) strictDirectives(part, list); return list; }
  if (node === null || typeof node !== 'object') return list;
  if (/Function/.test(node.type) && node.body.type === 'BlockStatement' && node.params.some((part) => part.type !== 'Identifier')) {
    const found = node.body.body.find((statement, i, all) => /^["']use strict["']$/.test(statement.directive && statement.expression.raw) && all.slice(0, i).every((before) => before.directive !== undefined));
    if (found) list.push(found.start);
  }
  for (const value of Object.values(node)) strictDirectives(value, list);
  return list;
}

// the `=` of shorthands with an initializer in object literals that are no pattern
function initialized(node, tokens, list) {
  if (Array.isArray(node)) { for (const part of node) initialized(part, tokens, list); return list; }
  if (node === null || typeof node !== 'object') return list;
  if (node.type === 'ObjectExpression') {
    for (const part of node.properties) if (part.shorthand && part.value.type === 'AssignmentPattern') list.push(tokens.find((token) => token.start >= part.key.end).start);
  }
  for (const value of Object.values(node)) initialized(value, tokens, list);
  return list;
}

// The tree, its tokens and the least early errors; or the fault with the place where acorn stops and the last token.
function peer(text) {
  const tokens = [];
  const parser = new Parser({ ecmaVersion: 7, sourceType: 'module', preserveParens: true, onToken: tokens }, text);
  let tree;
  try { tree = parser.parse(); } catch (error) {
    if (!(error instanceof Stop)) throw error;
    return { fault: error.kind, at: error.at, rule: error.rule, last: tokens.filter((token) => token.end > token.start).pop() || { start: 0, end: 0 } };
  }
  const early = parser.early;
  if (parser.hasStrictDirective) {
    const found = strictDirectives(tree, []);
    if (found.length === 0) throw new Error('modules: no directive of strict code is found');
    for (const at of found) early.push({ rules: [25], at });
  }
  for (const at of initialized(tree, tokens, [])) early.push({ rules: [11], at });
  for (const note of early) {
    if (note.rules[1] !== 18) continue;
    const next = tokens[tokens.findIndex((token) => token.start === note.at) + 1];
    note.rules = next.type === tokTypes.parenL ? [17] : [18];
  }
  const at = early.length > 0 ? Math.min(...early.map((note) => note.at)) : null;
  return { tree, tokens, early: at === null ? null : { at, rules: early.filter((note) => note.at === at).flatMap((note) => note.rules) } };
}

// What a text begins with, read as the goal says, with its tokens and the end of the last one; or the fault, as `peer` gives it.
function peerPart(text, goal) {
  const tokens = [];
  const parser = new Parser({ ecmaVersion: 7, sourceType: 'module', preserveParens: true, onToken: tokens }, text);
  try {
    parser.nextToken();
    const tree = goal === 'statement' ? parser.parseStatement(null) : parser.parseExpression();
    const part = { tree, tokens, end: parser.lastTokEnd };
    return goal === 'pattern' ? { ...part, ...refinedPattern(parser, tree) } : part;
  } catch (error) {
    if (!(error instanceof Stop)) throw error;
    return { fault: error.kind, at: error.at, rule: error.rule };
  }
}
// the pattern that an expression is refined to, or its first part that no pattern spells
function refinedPattern(parser, tree) {
  if (!isLeft(tree)) return { misfit: tree.start };
  const pattern = parser.toAssignable(tree, false);
  return parser.misfit === pattern ? { misfit: parser.early[parser.early.length - 1].at } : { pattern };
}
// the parameters that a whole text is before `=>`, or nothing
function peerParameters(text) {
  const part = peerPart(text + ' => 0', 'expression');
  if (part.fault || part.tree.type !== 'ArrowFunctionExpression' || part.tree.body.start < text.length) return null;
  return { parameters: part.tree.params, tokens: part.tokens };
}

// A text's tokens with what stands before each, a stretch of a template with the marks round it as one token.
function piecesOf(text) {
  const tokens = [...acorn.tokenizer(text, { ecmaVersion: 7, sourceType: 'module' })];
  const pieces = [];
  for (let i = 0, last = 0; i < tokens.length; i++) {
    const { start } = tokens[i];
    if (tokens[i + 1] && tokens[i + 1].type === tokTypes.template) i += 2;
    pieces.push({ gap: /[\n\r\u2028\u2029]/.test(text.slice(last, start)) ? '\n' : ' ', text: text.slice(start, tokens[i].end), end: tokens[i].end });
    last = tokens[i].end;
  }
  return pieces;
}

module.exports = { peer, peerPart, peerParameters, piecesOf };

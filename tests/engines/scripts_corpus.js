// Source texts of scripts: every production of the ES5 profile, every nesting of two of them, and every deletion, doubling,
// swap and prefix of the tokens of a part of them. A text is a list of tokens; the seed says where lines end between them.
'use strict';

const { numbers } = require('./numbers.js');

// Productions by what they give. A capital stands for a hole: E an expression, A one without a comma, L a left-hand side,
// S a statement; a production with `return` or `this` stands in a function.
const expressions = [
  'a', 'this', 'null', 'true', 'false', '0', '12', '9007199254740991', '0x1F', '"t"', "'\\n\\x41\\u0042\\''", '""',
  '[ ]', '[ A ]', '[ A , ]', '[ , A , , A ]', '[ , ]',
  '{ }', '{ a : A }', '{ "a b" : A , 1 : A , }', '{ get : A , set : A }', '{ if : A }',
  '{ get a ( ) { S } , set a ( b ) { S } }', '{ get "x" ( ) { return E ; } }', '{ get if ( ) { } , set 2 ( b ) { } }',
  'function ( ) { S }', 'function f ( a , b ) { return E ; }', 'function ( a ) { "use strict" ; return ; }',
  'L . b', 'L . if', 'L [ E ]', 'L ( )', 'L ( A )', 'L ( A , A )', 'L . b ( A ) [ E ] . c',
  'new L', 'new L ( )', 'new L ( A , A )', 'new new L ( A ) ( )', 'new L . b ( ) . c',
  '( E )', '( L ) . b', '( L . b ) ( A )', 'a ++', 'a . b --', '++ a', '-- a [ E ]', '( a ) ++',
  'delete L . b', 'delete E', 'void A', 'typeof A', '+ A', '- A', '~ A', '! A', '- - a', '+ + a', '- -- a', 'a - - b', 'a + ++ b',
  'a * b', 'a / b', 'a % b', 'A + a', 'A - a', 'a << b', 'a >> b', 'a >>> b', 'a < b', 'a > b', 'a <= b', 'a >= b', 'a instanceof b',
  'a in b', 'a == b', 'a != b', 'a === b', 'a !== b', 'a & b', 'a ^ b', 'a | b', 'a && b', 'a || b',
  'a + b * c - d / e % f', '( A ) * ( A )', 'a + ( b + c )', 'a < b == c > d', 'a || b && c | d ^ e & f', 'a -- > b', 'a < ! -- b',
  '( A , A ) ? A : A', 'a ? A : A', 'a ? b : c ? d : e', '( a ? b : c ) ? d : e',
  'a = A', 'a . b = A', 'a [ E ] += A', 'a -= A', 'a *= A', 'a /= A', 'a %= A', 'a <<= A', 'a >>= A', 'a >>>= A', 'a &= A', 'a ^= A', 'a |= A',
  'a = b = c', 'a , A', 'a , b , c', '( a , b ) , c',
];
const statements = [
  '{ }', '{ S }', '{ S S }', 'var a ;', 'var a = A ;', 'var a , b = A , c ;', ';', 'a ;', 'a = E ;', '( function ( ) { } ) ( ) ;', '( { } ) ;', '"t" ;',
  'if ( E ) S', 'if ( E ) S else S', 'if ( a ) S else if ( E ) S else if ( c ) S else S', 'if ( a ) if ( b ) ; else ;', 'if ( a ) { if ( b ) ; } else ;',
  'do S while ( E ) ;', 'while ( E ) S', 'for ( ; ; ) S', 'for ( E ; E ; E ) S', 'for ( var i = 0 ; i < 3 ; i ++ ) S', 'for ( var i = A , j ; ; ) S',
  'for ( ( a in b ) ; ; ) S', 'for ( var i = ( a in b ) ; ; ) S', 'for ( var i = [ a in b ] ; a in b ; a in b ) S',
  'for ( ; ; ) continue ;', 'for ( ; ; ) break ;', 'k : for ( ; ; ) { continue k ; }', 'k : { break k ; }', 'j : k : while ( a ) { continue j ; }',
  'switch ( E ) { }', 'switch ( a ) { case E : S case b : default : S break ; case c : }', 'switch ( a ) { default : }', 'k : S', 'throw E ;',
  'try { S } catch ( e ) { S }', 'try { S } finally { S }', 'try { } catch ( e ) { } finally { S }', 'debugger ;', 'L . b ( A ) ;', 'new L ;',
];
const declarations = ['function g ( ) { }', 'function g ( a , b ) { S return E ; }', 'function g ( ) { return ; function h ( ) { } var x ; return function ( ) { } ; }'];

const needsParentheses = (text) => /^[{f]/.test(text) && /^(\{|function\b)/.test(text);
const isLeft = (text) => !/ (,|\?|\+|-|\*|\/|%|<<|>>|>>>|<|>|<=|>=|==|!=|===|!==|&|\^|\||&&|\|\||\S*=|in|instanceof|\+\+|--) |(^| )(\+\+|--)( |$)|^(\+|-|~|!|delete|void|typeof|new) /.test(' ' + text + ' ') && !/^(\+|-|~|!|\+\+|--|delete|void|typeof|new)/.test(text);
const fill = (template, hole, text) => template.replace(new RegExp('(^| )' + hole + '(?= |$)'), (_, before) => before + text.replace(/\$/g, '$$$$'));
const holeOf = (template) => { const found = /(^| )([EALS])(?= |$)/.exec(template); return found && found[2]; };

// every hole but one is filled with a leaf, that one with each production
function* nested(template) {
  const holes = template.split(' ').filter((token) => /^[EALS]$/.test(token));
  const leaves = { E: 'x', A: 'x', L: 'x', S: 'y ;' };
  const filled = (at, text) => { let result = template, index = 0; for (let hole; (hole = holeOf(result)); index++) result = fill(result, hole, index === at ? text.replace(/(^| )([EALS])(?= |$)/g, (_, before, letter) => before + leaves[letter]) : leaves[hole]); return result; };
  if (holes.length === 0) { yield template; return; }
  for (const [at, hole] of holes.entries()) {
    if (hole === 'S') { for (const inner of statements) yield filled(at, inner); continue; }
    for (const inner of expressions) {
      yield filled(at, '( ' + inner + ' )');
      if (hole === 'E' || hole === 'A' && !/ , /.test(inner.replace(/[([{].*[)\]}]/g, '')) || hole === 'L' && isLeft(inner)) yield filled(at, inner);
    }
  }
}

// Tokens as a script, with the directive, and all of it in a function or at the top.
const directive = '"use strict" ;';
const inFunction = (text) => directive + ' function q ( ) { ' + text + ' }';
const atTop = (text) => directive + ' ' + text;
const asStatement = (expression) => (needsParentheses(expression) ? '( ' + expression + ' ) ;' : expression + ' ;');

function* wholes() {
  for (const template of expressions) for (const text of nested(template)) yield inFunction(asStatement(text));
  for (const template of statements) for (const text of nested(template)) { yield inFunction(text); if (!/\b(return|this)\b/.test(text)) yield atTop(text); }
  for (const template of declarations) for (const text of nested(template)) { yield inFunction(text); yield atTop(text); }
}

// the tokens of a text with a space or a line's end between two
const spaced = (tokens, random) => tokens.map((token, i) => (i === 0 ? '' : random(6) === 0 ? '\n' : ' ') + token).join('');
const tokensOf = (text) => text.match(/"(\\.|[^"\\])*"|'(\\.|[^'\\])*'|\S+/g);

function* edits(text) {
  const tokens = tokensOf(text);
  for (let i = 0; i <= tokens.length; i++) yield tokens.slice(0, i);
  for (let i = 2; i < tokens.length; i++) {
    yield [...tokens.slice(0, i), ...tokens.slice(i + 1)];
    yield [...tokens.slice(0, i), tokens[i], ...tokens.slice(i)];
    if (i + 1 < tokens.length) yield [...tokens.slice(0, i), tokens[i + 1], tokens[i], ...tokens.slice(i + 2)];
  }
}

// Texts of their own: the directive, lines, comments, early errors, what is outside the profile, what is refused.
const singles = [
  '', ' ', '"use strict"', "'use strict'", '"use strict";', '"use\\x20strict";', 'x', '"use strict" + x', '"use strict"\n+ x', '"use strict"\nx', '"use strict" x', '"use strict", x', '"use strict"()', '"use strict".x', '"use strict"[0]',
  '"use strict" instanceof x', '"use strict" ? a : b', '"use strict"++', '"use strict"\n++x', '/* c */ "use strict" // d\nx', '\ufeff"use strict"; x',
  ...[
    'with', 'with (a) b', '{ with (a) b }', 'a with', 'for (a in b) c', 'for (var a in b) c', 'for (var a = 1 in b) c', 'for (a.b in c) d', 'for (f() in c) d', 'for (a + b in c) d', 'for ((a) in b) c', 'for (var a, b in c) d', 'for (a, b in c) d',
    'a = /b/', 'a = /=b/', '/', 'a / b / c', '(/a/)', 'a\n/b/g', 'a++ /b', 'if (a) /b/', '1.5', '.5', '1e3', '1.', '9007199254740992', '0x20000000000000', 'a 1.5', '01', '08', '0x', '3in b', '1a', '"\\01"', '"\\0"', '"\\8"', '"\\x1"', '"\\u12"', '"a\nb"', '"a\\\nb"', '"a\\\r\nb"', '@', '#a', 'a\\u0062', '/* open', 'a /* b\n c */ d', 'a /* b */ d', 'a\u2028b', 'a\u00a0; b',
    'return', 'return a', 'function f() { return\na }', 'break', 'continue', 'k: break k', 'k: continue k', 'k: k: a', 'k: { k: a }', 'k: function_; ', 'k: function f() {}', 'if (a) function f() {}', '{ function f() {} }', 'while (a) function f() {}', 'function f() {} ()', 'function () {}', 'function eval() {}', 'function f(a, a) {}', 'function f(eval) {}', 'var eval', 'var arguments = 1', 'eval = 1', 'eval++', '--arguments', 'eval(a)', 'a = eval', 'a.eval', 'a = arguments', 'this', 'this.a', 'function f() { this }', 'delete a', 'delete (a)', 'delete ((a))', 'delete a.b', 'delete (a.b)', '(a) = 1', '(a.b) = 1', '(a + b) = 1', 'a + b = 1', 'a() = 1', 'new a = 1', 'a() ++', '++a()', '1 = a', 'a = b = 1', '(a = b) = 1', 'a ? b : c = d', 'a++ ++', '++a++', '"a" = 1', 'function_ = 1', '({}) = 1', '[] = 1', 'this = 1',
    '({ a: 1, a: 2 })', '({ a: 1, "a": 2 })', '({ 1: 1, "1": 2 })', '({ 0x1: 1, 1: 2 })', '({ get a() {}, a: 1 })', '({ get a() {}, get a() {} })', '({ get a() {}, set a(b) {} })', '({ set a(b) {}, set a(c) {} })', '({ set a() {} })', '({ get a(b) {} })', '({ set a(eval) {} })', '({ get: 1, set: 2 })', '({ get })', '({ a })', '({ a, })', '({ , })', '({ a: 1 b: 2 })', '({ get a: 1 })', '({ __proto__: 1, __proto__: 2 })', '({ a() {} })', '({ [a]: 1 })',
    'a\n++b', 'a\n++\nb', 'a++\nb', 'a b', 'a\nb', '{ a b }', '{ a }', '{ a } b', 'if (a) ; else b', 'if (a)\nelse b', 'if (a) b else c', 'if (a) b\nelse c', 'if (a)', 'while (a)', 'for (a; b\n) c', 'for (;\n;) c', 'for (a\nb\nc) d', 'do a while (b)', 'do a\nwhile (b)', 'do a; while (b) c', 'do a; while (b)\nc', 'do ; while (a) }', 'do a while (b) ; c', 'throw\na', 'throw', 'break\na', 'a:\nb', 'a\n(b)', 'a\n[b]', 'a = b\n(c)', 'a\n? b : c', 'var a\nvar b', 'var a b', 'var\na', 'var a\n= b', 'var a, ', 'var a = ', 'var 1', 'var if', 'var let', 'var yield', 'var static', 'var await', 'var async', 'var of', 'var get', 'var undefined', 'let a', 'const a = 1', 'class A {}', 'import a', 'export a', 'super.a', 'enum a', 'yield', 'a => b', '(a) => b', '() => a', '`a`', 'a`b`', '...a', 'f(...a)', '[...a]', 'a ** b', 'a ?? b', 'a?.b', 'new.target', '0b1', '0o1', '1_0', '1n', 'a\\\n', 'debugger', 'debugger a', 'switch (a) { b }', 'switch (a) { default: default: }', 'switch (a) { case b }', 'switch (a) { case : }', 'switch (a) { case b: c case d: }', 'switch (a) { case b: c\ncase d: }', 'switch (a) { case b: function f() {} }', 'try {}', 'try a catch (e) {}', 'try {} catch {}', 'try {} catch (eval) {}', 'try {} catch (e) a', 'try {} catch (e, f) {}', 'try {} catch ([e]) {}', 'try {} finally a', '}', ')', ']', '{', '(', '[', 'a.', 'a.1', 'a."b"', 'a[', 'a[]', 'a(,)', 'a(b,)', 'a(b c)', 'new', 'new a b', 'new (a)', 'new (a())()', 'new a()()', 'new a.b.c', 'new a[b]', 'new a().b()', 'new +a', 'new function() {}', 'function f(a,) {}', 'function f(1) {}', 'function f(a b) {}', 'function 1() {}', 'function if() {}', 'function f() {', 'function f()', 'function f', 'a <!-- b', 'a --> b', 'a--> b', '<!-- b', '--> b',
  ].map((text) => '"use strict"; ' + text),
];

// constructs of one kind in one another: how a text of so many begins and ends
// Nestings: what stands before and behind each, what stands inside all, what stands behind all, and how many constructs open at once in
// each. A `#` is a number of its own.
const deep = [
  // brackets, literals, members, calls
  ['(', 'a', ')', ';'], ['[', '', ']', ';'], ['[,', '', ',]', ';'], ['a[', '0', ']', ';'], ['a.b[', '0', ']', ';'], ['f(', 'a', ')', ';'], ['f(0, ', 'a', ', 1)', ';'],
  ['new a(', 'a', ')', ';'], ['new (', 'a', ')()', ';', 2], ['new ', 'a', '', ';'], ['(', 'a', ').b', ';'], ['(', 'a', ')()', ';'], ['(', 'a', ', b)', ';'], ['(a, ', 'a', ')', ';'],
  ['[{b: ', '1', '}]', ';', 2], ['f({b: ', '1', '})', ';', 2], ['({b: ', '1', '})', ';', 2], ['a = {b: ', '1', '}', ';', 2],
  // operators
  ['- ', 'a', '', ';'], ['! ', 'a', '', ';'], ['typeof ', 'a', '', ';'], ['delete ', 'a.b', '', ';'], ['void ', 'a', '', ';'], ['++ a[', '0', ']', ';', 2],
  ['(', 'a', ' + a)', ';'], ['(a * ', 'a', ')', ';'], ['(a || a && a | a ^ a & a == a < a << a + a * ', 'a', ')', ';'],
  ['a = ', 'a', '', ';'], ['a.b += ', 'a', '', ';'], ['a ? ', 'a', ' : a', ';'], ['a ? a : ', 'a', '', ';'], ['(a ? ', 'a', ' : a)', ';', 2],
  // functions
  ['a = function () {', '', '}', ';', 2], ['function f() {', '', '}', ''], ['function f() {return ', '0', '}', ''], ['throw function () {', '', '}', ''], ['a, function () {', '', '}', ';'], ['a + function () {', '', '}', ';'],
  ['f(function () {', '', '})', ';', 2], ['(function () {', '', '})()', ';', 2], ['new a(function () {', '', '})', ';', 2], ['[function () {', '', '}]', ';', 2], ['a[function () {', '', '}]', ';', 2], ['! function () {', '', '}', ';', 2],
  ['var a = function () {', '', '}', ';', 2], ['throw {get a() {', '', '}}', '', 2], ['throw {set a(b) {', '', '}}', '', 2], ['throw {a: function () {', '', '}}', '', 2], ['throw function f(a) {', '', '}', ''],
  // statements
  ['{', '', '}', ''], ['if (a) ', ';', '', ''], ['if (a) {} else {', '', '}', '', 2], ['if (a) ; else if (a) {', '', '}', '', 2], ['if (a) ; else while (a) ', ';', '', '', 2],
  ['while (a) ', ';', '', ''], ['do ', ';', ' while (a);', ''], ['for (;;) ', ';', '', ''], ['for (var a, b; a; a++) ', ';', '', ''], ['for (a; a; a) ', ';', '', ''], ['l#: ', ';', '', ''],
  ['try {', '', '} catch (e) {}', ''], ['try {} catch (e) {', '', '}', ''], ['try {', '', '} finally {}', ''], ['try {} finally {', '', '}', ''], ['try {} catch (e) {} finally {', '', '}', ''],
  ['switch (a) {case 0: ', '', '}', ''], ['switch (a) {default: ', '', '}', ''], ['switch (a) {case 0: ; default: ', '', ' case 1:}', ''],
  // functions in the heads of statements
  ['if (function () {', '', '}) ;', '', 2], ['while (function () {', '', '}) ;', '', 2], ['do ; while (function () {', '', '});', '', 2], ['for (a = function () {', '', '};;) ;', '', 3], ['for (; function () {', '', '};) ;', '', 2], ['for (;; function () {', '', '}) ;', '', 2],
  ['for (var a = function () {', '', '};;) ;', '', 3], ['switch (function () {', '', '}) {}', '', 2], ['switch (a) {case function () {', '', '}:}', '', 2],
];

module.exports = { numbers, wholes, edits, singles, deep, spaced, tokensOf, directive };

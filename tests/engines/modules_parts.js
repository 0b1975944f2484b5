// Holds what is read by itself to acorn, the parser inside node: expressions and statements node by node, how many tokens they take
// and where they stop, and what an expression is refined to before `=` and `=>`. Usage: node --expose-internals modules_parts.js
// PROGRAM, or MODULE_LINES=COMMAND in place of PROGRAM.
'use strict';
const { ask, faultOf } = require('./modules_ask.js');
const { peerPart, peerParameters, piecesOf } = require('./modules_acorn.js');
const { linesOf, byteOffsets } = require('./modules_tree.js');
const { wholes, expressionTexts, singles } = require('./modules_corpus.js');

const faultLine = (theirs, offsets) => `${theirs.fault}${theirs.rule ? ' ' + theirs.rule : ''} ${offsets[theirs.at]}`;

// The text up to where acorn stops, if it is an expression by itself, since that is what is read then; else the whole text.
function readable(text) {
  const theirs = peerPart(text, 'expression');
  if (theirs.fault !== 'Syntax') return text;
  const front = text.slice(0, theirs.at);
  const part = peerPart(front, 'expression');
  return part.fault || piecesOf(front.slice(part.end)).length > 0 ? text : front;
}
// what the program has to print for an expression or a statement
function wantedRead(goal, whole) {
  const text = goal === 'expression' ? readable(whole) : whole;
  const theirs = peerPart(text, goal);
  if (theirs.fault) return [faultLine(theirs, byteOffsets(text))];
  return [...linesOf(text, theirs.tree, theirs.tokens, goal), 'taken ' + piecesOf(text.slice(0, theirs.end)).length];
}
// for a pattern: the expression is handed back where it is none
function wantedPattern(goal, whole) {
  const text = readable(whole);
  const theirs = peerPart(text, goal);
  if (theirs.fault) return [faultLine(theirs, byteOffsets(text))];
  if (theirs.misfit === undefined) return linesOf(text, theirs.pattern, theirs.tokens, goal);
  const plain = peerPart(text, 'expression');
  return ['NotAPattern ' + byteOffsets(text)[theirs.misfit], ...linesOf(text, plain.tree, plain.tokens, 'expression')];
}
// for parameters, of which acorn doesn't say what part is none
function wantedParameters(goal, whole) {
  const text = readable(whole);
  const plain = peerPart(text, 'expression');
  if (plain.fault) return [faultLine(plain, byteOffsets(text))];
  const theirs = peerParameters(text.slice(0, plain.end));
  if (theirs) return linesOf(text, theirs.parameters, theirs.tokens, goal);
  return ['NotAPattern', ...linesOf(text, plain.tree, plain.tokens, 'expression')];
}

// Where the program is right, and acorn says something else.
const allowed = [
  {
    why: 'a regular expression as the operand of `new` or as a heritage: the profile says U2 only where `!` could stand',
    is: (text, wanted, lines) => wanted[0] === 'Outside 2 ' + stopsAt(lines) && /\b(new|extends) $/.test(text.slice(0, stopsAt(lines))),
  },
  {
    why: 'acorn takes a function or class that a text begins with for a declaration, and a `/` behind it for a regular expression',
    is: (text, wanted) => /^(function|class)\b[^]*\} ?\//.test(text) && /^(Function|Class) /.test(wanted[0]),
  },
];
function stopsAt(lines) { const fault = faultOf(lines); return fault && fault.fault === 'Syntax' ? fault.at : null; }

let failed = 0, compared = 0;
const explained = {};
function compare(name, goal, wantedOf, texts) {
  const kinds = {};
  for (const [i, lines] of ask(texts, goal).entries()) {
    const text = texts[i], wanted = wantedOf(goal, text);
    compared++;
    const kind = faultOf(lines) ? lines[0].replace(/ [0-9]+$/, '') : lines[0].startsWith('NotAPattern') ? 'NotAPattern' : 'trees';
    kinds[kind] = (kinds[kind] || 0) + 1;
    if (wanted[0] === 'NotAPattern') lines[0] = lines[0].replace(/^NotAPattern [0-9]+$/, 'NotAPattern');
    // acorn reads one token ahead, and names a place inside the one at fault
    if (wanted[0].startsWith('Lexical ')) continue;
    const at = wanted.findIndex((line, k) => line !== lines[k]);
    if (at < 0 && wanted.length === lines.length) continue;
    const known = allowed.find((one) => one.is(text, wanted, lines));
    if (known) { explained[known.why] = (explained[known.why] || 0) + 1; continue; }
    if (failed++ < 20) console.log(`modules_parts: ${name}: acorn has ${wanted[at] || 'no more'}, not ${at < 0 ? lines[wanted.length] : lines[at]}: ${JSON.stringify(text)}`);
  }
  console.log('modules_parts: ' + texts.length + ' ' + name + ': ' + JSON.stringify(kinds));
}

// MODULES_SAMPLE=N takes one text of N, where the program is slow.
const sample = +(process.env.MODULES_SAMPLE || 1);
const thinned = (texts) => (sample === 1 ? texts : texts.filter((_, i) => (i * 7919) % sample === 0));
const expressions = [...new Set(expressionTexts())];
const statements = [...new Set(wholes())];
// with another token behind it
const followed = expressions.filter((_, i) => i % 5 === 0).flatMap((text) => [text + ' b', text + ' )', text + ' => 0', text + '\n( c )']);

compare('expressions', 'expression', wantedRead, thinned([...expressions, ...followed, ...singles]));
compare('statements', 'statement', wantedRead, thinned([...statements, ...singles]));
compare('expressions as patterns', 'pattern', wantedPattern, thinned(expressions));
compare('expressions as parameters', 'parameters', wantedParameters, thinned(expressions).flatMap((text) => [text, '( ' + text + ' )']));
console.log('modules_parts: ' + compared + ' texts; explained: ' + JSON.stringify(explained));
console.log(failed === 0 ? 'modules_parts: passed' : 'modules_parts: ' + failed + ' differences');
process.exit(failed === 0 ? 0 : 1);

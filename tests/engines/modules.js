// Holds the modules that are read to acorn, the parser inside node: the tree node by node, where the reader stops, and the first
// early error. Usage: node --expose-internals modules.js PROGRAM, or MODULE_LINES=COMMAND in place of PROGRAM.
'use strict';
const { ask, faultOf } = require('./modules_ask.js');
const { peer, piecesOf } = require('./modules_acorn.js');
const { linesOf, byteOffsets } = require('./modules_tree.js');
const { numbers, wholes, spaced, bare, singles } = require('./modules_corpus.js');
const { programs } = require('./modules_programs.js');
const { rows, deep } = require('./modules_rows.js');
const { large } = require('./modules_large.js');

// What the program answers to each text: the lines of the tree with the findings, or the fault.
const answers = (texts) => ask(texts, 'module').map(answerOf);
function answerOf(lines) {
  const fault = faultOf(lines);
  if (fault) return fault;
  if (!/^Module /.test(lines[0])) throw new Error('modules: no answer: ' + JSON.stringify(lines));
  const result = { lines };
  for (const letter of 'UE') {
    const found = new RegExp('^' + letter + '([0-9]+) ([0-9]+)$').exec(lines[lines.length - 1]);
    if (!found) continue;
    result[letter] = { rule: +found[1], at: +found[2], line: found[0] };
    lines.pop();
  }
  return result;
}

const before = (text, at) => Buffer.from(text).subarray(0, at).toString();
const behind = (text, at) => Buffer.from(text).subarray(at).toString();
// What stands before the comma in front of a place can't be the first parameters of an arrow.
function isNoParameters(text, at) {
  const pieces = piecesOf(before(text, at));
  const comma = pieces[pieces.length - 1];
  if (!comma || comma.text !== ',') return false;
  const front = text.slice(0, comma.end - 1);
  const theirs = peer(front + ') => 0');
  return theirs.fault === 'Syntax' && theirs.at === front.length + 2;
}
// whether acorn finds no fault in the front or at the token behind it
const goesOn = (front, token) => { const theirs = peer(front + token); return !theirs.fault || theirs.at > front.length; };
// Where the program is right, or the profile is meant to differ, and acorn says something else; each by what stands at the place.
const allowed = [
  {
    why: 'a rest in parentheses behind what is no parameter: no `=>` can follow, which acorn finds out at the end of the parentheses',
    is: (text, ours) => ours.fault === 'Syntax' && behind(text, ours.at).startsWith('...') && isNoParameters(text, ours.at),
  },
  {
    why: 'a regular expression as the operand of `new` or as a heritage: the profile says U2 only where `!` could stand',
    is: (text, ours, why) => ours.fault === 'Syntax' && why === 'acorn: Outside 2 ' + ours.at && /^(new|extends)$/.test(piecesOf(before(text, ours.at)).pop().text),
  },
  {
    why: 'a `/=` on a line of its own where nothing is assigned: before `!` in its place a semicolon would be inserted, so it is U2',
    is: (text, ours, why) => ours.rule === 2 && why === 'acorn: Syntax ' + ours.at && behind(text, ours.at).startsWith('/=') && goesOn(before(text, ours.at), '!a'),
  },
];

// Why the program's answer isn't that of acorn, or nothing.
function difference(text, ours) {
  const theirs = peer(text);
  const offsets = byteOffsets(text);
  if (theirs.fault) {
    const at = offsets[theirs.at];
    const said = theirs.fault + (theirs.rule ? ' ' + theirs.rule : '') + ' ' + at;
    if (!ours.fault) return 'acorn: ' + said;
    // acorn names a place inside the token at fault, and takes the mark before a stretch of a template for a token of its own
    if (theirs.fault === 'Lexical' && ours.fault === 'Lexical') {
      const { start, end } = theirs.last;
      const isBehind = offsets[end] <= ours.at || offsets[start] === ours.at && /[`}]/.test(text[start]);
      return ours.at <= at && isBehind ? null : 'acorn: ' + said;
    }
    return ours.line === said ? null : 'acorn: ' + said;
  }
  if (ours.fault) return 'acorn takes it';
  const lines = linesOf(text, theirs.tree, theirs.tokens);
  const at = lines.findIndex((line, i) => line !== ours.lines[i]);
  if (at >= 0) return 'acorn has ' + JSON.stringify(lines[at]) + ', not ' + JSON.stringify(ours.lines[at]);
  if (lines.length !== ours.lines.length) return 'acorn lacks ' + JSON.stringify(ours.lines[lines.length]);
  const early = theirs.early && { at: offsets[theirs.early.at], rules: theirs.early.rules };
  if (!early && !ours.E) return null;
  if (!early || !ours.E || early.at !== ours.E.at || !early.rules.includes(ours.E.rule)) return 'acorn: ' + (early ? 'E' + early.rules.join(' or E') + ' ' + early.at : 'no early error');
  return null;
}

let failed = 0, compared = 0;
const explained = {};
const kindsSeen = new Set();
const saidOf = (ours) => (ours.fault ? ours.line : ours.E ? ours.E.line : ours.U ? ours.U.line : 'a tree');
function report(what, text, ours) {
  if (failed++ < +(process.env.MODULES_SHOWN || 20)) console.log('modules: ' + what + '; ours: ' + saidOf(ours) + ': ' + JSON.stringify(text.length > 300 ? text.slice(0, 300) + '...' : text));
}

function compare(name, texts) {
  const list = answers(texts);
  const kinds = {};
  for (const [i, text] of texts.entries()) {
    const ours = list[i];
    compared++;
    const kind = ours.fault ? ours.fault + (ours.rule ? ' U' + ours.rule : '') : ours.E ? 'E' + ours.E.rule : 'trees';
    kinds[kind] = (kinds[kind] || 0) + 1;
    if (ours.lines) for (const line of ours.lines) kindsSeen.add(line.split(' ')[0]);
    const why = difference(text, ours);
    if (!why) continue;
    const known = allowed.find((one) => one.is(text, ours, why));
    if (known) explained[known.why] = (explained[known.why] || 0) + 1; else report(why, text, ours);
  }
  console.log('modules: ' + texts.length + ' ' + name + ': ' + JSON.stringify(kinds));
}

// The text of some tokens, with the line breaks that stood before them.
const joined = (pieces) => pieces.map((piece, i) => (i === 0 ? '' : piece.gap) + piece.text).join('');
// one token left out, doubled, or swapped with the next one
function* edits(text) {
  const pieces = piecesOf(text);
  for (let i = 0; i < pieces.length; i++) {
    yield joined([...pieces.slice(0, i), ...pieces.slice(i + 1)]);
    yield joined([...pieces.slice(0, i), pieces[i], ...pieces.slice(i)]);
    if (i + 1 < pieces.length) yield joined([...pieces.slice(0, i), pieces[i + 1], pieces[i], ...pieces.slice(i + 2)]);
  }
}

// A text that is cut behind any of its tokens is a module, or stops at its end.
function prefixes() {
  const texts = [];
  for (const text of programs) for (const { end } of [{ end: 0 }, ...piecesOf(text)]) texts.push(text.slice(0, end));
  const list = answers(texts);
  for (const [i, ours] of list.entries()) if (ours.fault && ours.line !== 'Syntax ' + Buffer.byteLength(texts[i])) report('a front stops before its end', texts[i], ours);
  compare('fronts of programs', texts);
}

// The texts of which the findings and faults are known, and the constructs that may be open at once: 256 of each kind, the next
// one being refused where it begins.
function known() {
  const list = answers(rows.map(([text]) => text));
  for (const [i, [text, wanted]] of rows.entries()) if (saidOf(list[i]) !== wanted) report('wanted ' + wanted, text, list[i]);
  const texts = [], wanted = [];
  for (const [name, make] of deep) {
    for (const count of [1, 256, 257]) {
      const { text, last } = make(count);
      texts.push(text);
      wanted.push(count === 257 ? 'Depth ' + last : null);
    }
  }
  const depths = answers(texts);
  for (const [i, ours] of depths.entries()) {
    const isRight = wanted[i] === null ? !ours.fault : ours.line === wanted[i];
    if (!isRight) report('wanted ' + (wanted[i] || 'a tree') + ' for ' + deep[Math.floor(i / 3)][0], texts[i], ours);
  }
  compared += rows.length + texts.length;
  console.log('modules: ' + rows.length + ' texts with a known answer, and ' + texts.length + ' of ' + deep.length + ' kinds of construct in one another');
}

// MODULES_SAMPLE=N takes one text of N, where the program is slow.
const sample = +(process.env.MODULES_SAMPLE || 1);
const thinned = (texts) => (sample === 1 ? texts : texts.filter((_, i) => (i * 7919) % sample === 0));
const random = numbers(20150617);
const all = [...new Set(wholes())];
compare('texts of all productions and of nestings of two', thinned(all));
compare('of them with line breaks and comments', thinned(all.filter((_, i) => i % 3 === 0)).map((text) => spaced(text, random)));
compare('of them with semicolons left out', thinned(all.filter((_, i) => i % 3 === 1)).map((text) => bare(text, random)));
compare('texts of line breaks, semicolons and refusals', singles);
prefixes();
compare('programs with a token left out, doubled or swapped', thinned([...new Set(programs.flatMap((text) => [...edits(text)]))]));
compare('short texts with a token left out, doubled or swapped', thinned([...new Set(all.filter((_, i) => i % 397 === 0).flatMap((text) => [...edits(text)]))]));
compare('long module as people write them', [large(Math.floor(262144 / sample))]);
known();
const printed = 'Module Import Default Namespace ImportName Specifier ExportNames ExportName ExportAll ExportDeclaration ExportDefault Block Variables Empty Expression If Condition Else DoWhile While For FirstVariables FirstExpression Test Step ForOf Declared Continue Break Return Switch Case Labelled Throw Try Catch Finally Debugger Function Class ClassMember Method WordKey TextKey IntegerKey ComputedKey This Name Literal Template Stretch ArrayList Hole Spread ObjectList Plain Shorthand Initialized Arrow Chain Member Index Call Tagged SuperMember SuperIndex SuperCall NewTarget New Update Unary Power Binary Operand Conditional Assign Sequence Yield Delegate Group ArrayPattern SkippedPart RestPart ObjectPattern KeyedPart Part RestParameter Identifier'.split(' ');
for (const kind of printed) if (!kindsSeen.has(kind)) { failed++; console.log('modules: no text has the node ' + kind); }
console.log('modules: ' + compared + ' texts; explained: ' + JSON.stringify(explained));
console.log(failed === 0 ? 'modules: passed' : 'modules: ' + failed + ' differences');
process.exit(failed === 0 ? 0 : 1);

// Holds the scripts that are read and printed to acorn, the parser inside node: which texts are scripts, where others stop,
// and what tree is read. Usage: node --expose-internals scripts.js PROGRAM. The program reads texts, each behind a line with
// its length in bytes, and writes `script N` and N bytes for each, or a fault's line.
'use strict';
const acorn = require('internal/deps/acorn/acorn/dist/acorn');
const vm = require('vm');
const fs = require('fs');
const os = require('os');
const path = require('path');
const { spawnSync } = require('child_process');
const { numbers, wholes, edits, singles, deep, spaced, tokensOf, directive } = require('./scripts_corpus.js');
const program = process.argv[2];

const peer = (text) => {
  try { return { tree: acorn.parse(text, { ecmaVersion: 5, preserveParens: true }) }; } catch (error) { return { message: error.message.replace(/ \(\d+:\d+\)$/, ''), at: Buffer.byteLength(text.slice(0, error.pos)) }; }
};

// what the program answers to each text, on a stack of so many KiB where that is given
function answers(texts, stack) {
  const input = [];
  for (const text of texts) { const bytes = Buffer.from(text); input.push(Buffer.from(bytes.length + '\n'), bytes); }
  const limited = stack ? ['sh', ['-c', 'ulimit -s ' + stack + '; exec "$0"', program]] : [program, []];
  const run = spawnSync(...limited, { input: Buffer.concat(input), maxBuffer: 1 << 30 });
  if (run.status !== 0) throw new Error('the program ended with ' + (run.status || run.signal) + ': ' + run.stderr);
  const out = run.stdout, list = [];
  for (let at = 0; at < out.length;) {
    const end = out.indexOf(10, at);
    const [word, ...numbers] = out.toString('latin1', at, end).split(' ');
    at = end + 1;
    if (word === 'script') { const length = +numbers[0]; list.push({ text: out.toString('utf8', at, at + length) }); at += length; }
    else list.push({ fault: word, rule: word === 'Early5' || word === 'Outside5' ? +numbers[0] : 0, at: +numbers[numbers.length - 1] });
  }
  if (list.length !== texts.length) throw new Error(list.length + ' answers to ' + texts.length + ' texts');
  return list;
}

// acorn's tree without places, parentheses and spellings
const bare = (node) => {
  if (Array.isArray(node)) return node.map(bare);
  if (node === null || typeof node !== 'object') return node;
  if (node.type === 'ParenthesizedExpression') return bare(node.expression);
  const out = {};
  for (const key of Object.keys(node).sort()) if (!['start', 'end', 'raw', 'directive', 'sourceFile'].includes(key)) out[key] = bare(node[key]);
  return out;
};

// acorn's words for the rows of table F
const early = [null, /^Argument name clash/, /^(Binding|Assigning to) (eval|arguments)/, /^Deleting local variable/, /^Redefinition of property/, /^Assigning to rvalue/, /^Label '.*' is already declared/, /^Unsyntactic/];
const isEarly = (message) => early.some((words) => words && words.test(message));

// Where the profile differs from acorn, what is asked of a text instead of the same answer.
const rest = (text, at) => Buffer.from(text).subarray(at).toString();
const front = (text, at) => Buffer.from(text).subarray(0, at).toString();
const isAlive = (text) => { const answer = peer(text); return !!answer.tree || answer.at >= Buffer.byteLength(text) || isEarly(answer.message); };
const outside = {
  // the directive is missing, also where an escape spells it
  1: (text, at) => !/^\s*("use strict"|'use strict')/.test(text.replace(/^(\/\*.*?\*\/|\s)*/s, '')) && (at === Buffer.byteLength(text) || !/^\s/.test(rest(text, at))),
  // strict code has no `with`
  2: (text, at, answer) => rest(text, at).startsWith('with') && !answer.tree,
  // for-in is a statement of the standard
  3: (text, at) => rest(text, at).startsWith('in') && /\bfor\b/.test(front(text, at)),
  // so are regular expressions: an operand may stand there
  4: (text, at) => rest(text, at).startsWith('/') && isAlive(front(text, at) + 'x'),
  // and numbers with a point, an exponent, or beyond the whole ones
  5: (text, at) => /^[\d.]/.test(rest(text, at)),
  // `this` and `eval` are known to the standard
  6: (text, at, answer) => rest(text, at).startsWith('this') && (!!answer.tree || isEarly(answer.message)),
  7: (text, at, answer) => rest(text, at).startsWith('eval') && (!!answer.tree || isEarly(answer.message)),
};
// Texts that acorn takes and the profile doesn't, or of which it stops later, by what stands at the fault.
const allowed = [
  // identifiers without escapes
  (text, at) => rest(text, at).startsWith('\\'),
  // a declaration of a function under a statement, which the standard leaves to its readers
  (text, at) => /^function\b/.test(rest(text, at)),
  // a directive that an operator goes on with
  (text, at) => /^\s*("use strict"|'use strict')\s*$/.test(front(text, at).replace(/^\ufeff/, '')),
  // the parameters of an accessor, which acorn counts only once it has read what follows them
  (text, at) => /\bset\s+\S+\s*\(\s*$/.test(front(text, at)) && rest(text, at).startsWith(')'),
  (text, at) => /\bget\s+\S+\s*\(\s*$/.test(front(text, at)) && !rest(text, at).startsWith(')'),
];

// `<!--` and `-->` begin no comment in the profile, and one in acorn, which is shown them apart.
const apart = (text) => text.replace(/<!--/g, '< !--').replace(/-->/g, '-- >');

// Why the program's answer isn't that of acorn, or nothing.
function difference(text, ours) {
  const answer = peer(apart(text));
  const placed = apart(text) === text;
  if (ours.text !== undefined) {
    if (!answer.tree) return 'acorn refuses: ' + answer.message + ' at ' + answer.at;
    const printed = peer(apart(ours.text));
    if (!printed.tree) return 'acorn refuses what is printed: ' + printed.message;
    if (JSON.stringify(bare(printed.tree)) !== JSON.stringify(bare(answer.tree))) return 'what is printed is another tree';
    return null;
  }
  const { fault, rule, at } = ours;
  if (fault === 'Outside5') return outside[rule](text, at, answer) ? null : 'outside by V' + rule;
  if (answer.tree) return allowed.some((is) => is(text, at)) ? null : 'acorn takes it';
  if (fault === 'Syntax5' && placed && /^Unexpected token/.test(answer.message) && answer.at !== at && !allowed.some((is) => is(text, at))) return 'acorn stops at ' + answer.at;
  if (fault === 'Early5' && !isEarly(answer.message)) return 'acorn says: ' + answer.message;
  if (fault === 'Early5' && early[rule].test(answer.message) && placed && rule !== 5 && rule !== 7 && answer.at !== at) return 'acorn finds it at ' + answer.at;
  return null;
}

let failed = 0;
const report = (what, text, ours) => { if (failed++ < 20) console.log('scripts: ' + what + '; ours: ' + JSON.stringify(ours.text === undefined ? ours : 'script') + ': ' + JSON.stringify(text)); };

function compare(texts) {
  const list = answers(texts);
  const kinds = {};
  const printed = new Set();
  for (const [i, text] of texts.entries()) {
    const ours = list[i];
    const kind = ours.text !== undefined ? 'script' : ours.fault === 'Early5' ? 'F' + ours.rule : ours.fault === 'Outside5' ? 'V' + ours.rule : ours.fault;
    kinds[kind] = (kinds[kind] || 0) + 1;
    const why = difference(text, ours);
    if (why) report(why, text, ours);
    if (ours.text !== undefined) printed.add(ours.text);
  }
  return { kinds, printed: [...printed] };
}

// What is printed prints as itself, and no browser's comment stands in it.
function reprint(texts) {
  const list = answers(texts);
  for (const [i, text] of texts.entries()) {
    if (list[i].text !== text) report('what is printed prints otherwise', text, list[i]);
    if (/-->|<!--/.test(text)) report('a comment of HTML stands in what is printed', text, list[i]);
    try { new vm.Script(text); } catch (error) { report('node refuses what is printed: ' + error.message, text, list[i]); }
  }
}

// What a small engine refuses of strict code though the standard has it.
const quirks = {
  mujs: [
    // `delete` of what is no reference, as of a call or of a comparison, gives true (11.4.1)
    /invalid l-value in delete expression/,
    // a `/` after `++` or `--` is read as a regular expression
    /regular expression not terminated/,
    // a `break` out of a labelled statement that is no loop (12.8)
    /break label '.*' not found/,
  ],
  duk: [
    // an `in` in brackets in the header of a for statement (12.6.3)
    /invalid array literal/,
  ],
};

// Small engines compile what is printed.
function compiled(engine, texts) {
  if (spawnSync('which', [engine]).status !== 0) { console.log('scripts: no ' + engine); return; }
  const folder = fs.mkdtempSync(path.join(os.tmpdir(), 'scripts-'));
  const ascii = (text) => JSON.stringify(text).replace(/[^\x20-\x7e]/g, (c) => '\\u' + c.charCodeAt(0).toString(16).padStart(4, '0'));
  for (let at = 0; at < texts.length; at += 4000) {
    const file = path.join(folder, 'part.js');
    fs.writeFileSync(file, 'var list = [' + texts.slice(at, at + 4000).map(ascii).join(',\n') + '];\nfor (var i = 0; i < list.length; i++) { try { Function(list[i]); } catch (e) { print("REFUSED " + e + ": " + list[i]); } }\nprint("DONE");\n');
    const run = spawnSync(engine, [file], { maxBuffer: 1 << 28 });
    const out = run.stdout.toString();
    const refused = (out.match(/^REFUSED.*$/gm) || []).filter((line) => !quirks[engine].some((words) => words.test(line)));
    if (!/^DONE$/m.test(out) || refused.length > 0) { failed++; console.log('scripts: ' + engine + ': ' + (refused.slice(0, 20).join('\n') + run.stderr).slice(0, 2000)); }
  }
  fs.rmSync(folder, { recursive: true });
}

// 2,048 constructs may be open at once, of each kind, on a stack of 4 MiB.
function depths() {
  const numbered = (part, count) => { let number = 0; return part.repeat(count).replace(/#/g, () => number++); };
  const nested = ([begin, middle, end, last], count) => directive + numbered(begin, count) + middle + end.repeat(count) + last;
  const texts = [], wanted = [];
  for (const kind of deep) {
    const most = Math.floor(2048 / (kind[4] || 1));
    for (const count of [1, most, most + 1]) { texts.push(nested(kind, count)); wanted.push(count <= most ? 'script' : 'Depth5'); }
  }
  const list = answers(texts, 4096);
  for (const [i, ours] of list.entries()) if ((ours.text !== undefined ? 'script' : ours.fault) !== wanted[i]) report('wanted ' + wanted[i], texts[i].slice(0, 60), ours);
  console.log('scripts: ' + deep.length + ' kinds of nesting, each up to its limit and one further, on a stack of 4 MiB');
}

const random = numbers(20111219);
const whole = [...new Set(wholes())];
const first = compare([...whole.map((text) => spaced(tokensOf(text), random)), ...singles]);
console.log('scripts: ' + whole.length + ' texts of all productions and nestings of two, and ' + singles.length + ' more: ' + JSON.stringify(first.kinds));
const edited = new Set();
whole.forEach((text, i) => { if (i % 40 === 0) for (const tokens of edits(text)) edited.add(spaced(tokens, random)); });
const second = compare([...edited]);
console.log('scripts: ' + edited.size + ' texts with a token left out, doubled or swapped, and fronts: ' + JSON.stringify(second.kinds));
depths();
const printed = [...new Set([...first.printed, ...second.printed])];
reprint(printed);
for (const engine of ['mujs', 'duk']) compiled(engine, printed);
console.log('scripts: ' + printed.length + ' printed texts print as themselves and are compiled');
console.log(failed === 0 ? 'scripts: passed' : 'scripts: ' + failed + ' differences');
process.exit(failed === 0 ? 0 : 1);

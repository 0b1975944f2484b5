// Builds graphs of modules with the program and compares what it refuses with what docs/PROFILE.md says: the status, the line on the error
// stream to the byte, and nothing on the output. Every expected line is worked out from the tables there, none from the program.
'use strict';
const { spawnSync } = require('child_process');
const fs = require('fs');
const os = require('os');
const path = require('path');
const { rows: known, deep } = require('./modules_rows.js');

const program = process.argv[2];
const work = fs.mkdtempSync(path.join(os.tmpdir(), 'refusals-'));
let compared = 0;
let failed = 0;

// Runs a command in a folder with these files, and compares what it leaves.
function compare(name, files, words, status, line, out = '') {
  const folder = path.join(work, 'run');
  fs.mkdirSync(folder);
  for (const [file, content] of Object.entries(files)) {
    fs.mkdirSync(path.dirname(path.join(folder, file)), { recursive: true });
    if (content === null) fs.mkdirSync(path.join(folder, file));
    else fs.writeFileSync(path.join(folder, file), content);
  }
  const run = spawnSync(program, words, { cwd: folder, maxBuffer: 1 << 30 });
  fs.rmSync(folder, { recursive: true });
  compared++;
  const wanted = Buffer.from(line === '' ? '' : line + '\n');
  const written = out instanceof RegExp ? out.test(run.stdout.toString()) : run.stdout.equals(Buffer.from(out));
  if (run.status === status && run.stderr.equals(wanted) && written) return;
  failed++;
  console.log(`refusals: ${name}: wanted ${status} ${JSON.stringify(line)}, got ${run.status} ${JSON.stringify(run.stderr.toString().slice(0, 300))} and ${run.stdout.length} bytes on the output`);
}

// Places count from 1, columns in UTF-16 units. Lines end at LF, CR, CR LF, U+2028 and U+2029.
function placed(text, at) {
  const front = Buffer.from(text).subarray(0, at).toString();
  const lines = front.split(/\r\n|[\n\r\u2028\u2029]/);
  return `main.js:${lines.length}:${lines[lines.length - 1].length + 1}`;
}

const refused = (name, files, line, status = 1) => compare(name, files, ['build', 'main.js'], status, line);
const single = (name, text, line, status = 1) => refused(name, { 'main.js': text }, line, status);
// Of a graph that passes a script is written; what it does, other tests ask.
const script = /^"use strict";\n/;
const passes = (name, files) => compare(name, files, ['build', 'main.js'], 0, '', script);

// 1. One module: each row of the table of early errors and of that of constructs outside the profile, lexical faults, syntax faults, and
// constructs that are open at once.
const lexicalKinds = ['BadCharacter', 'BadCharacter', 'IdentifierEscape', 'IdentifierEscape', 'OpenString', 'OpenString', 'OpenTemplate', 'OpenTemplate', 'OpenComment', 'OpenComment',
  'BadEscape', 'BadEscape', 'BadEscape', 'LegacyOctal', 'LegacyOctal', 'LegacyOctal', 'BadNumber', 'BadNumber', 'BadNumber', 'BadNumber', 'BadCharacter'];
const words = {};
for (const [text, wanted] of known) {
  const [word, ...numbers] = wanted.split(' ');
  words[word] = (words[word] || 0) + 1;
  const place = placed(text, +numbers[numbers.length - 1]);
  if (/^E\d/.test(word)) single(wanted, text, `${place}: early error ${word}`);
  else if (/^U\d/.test(word)) single(wanted, text, `${place}: outside the profile ${word}`);
  else if (word === 'Outside') single(wanted, text, `${place}: outside the profile U${numbers[0]}`);
  else if (word === 'Lexical') single(wanted, text, `${place}: lexical fault ${lexicalKinds[words[word] - 1]}`);
  else if (word === 'Syntax') single(wanted, text, `${place}: syntax fault`);
  else if (text === '') compare('no byte', { 'main.js': '' }, ['build', 'main.js'], 0, '', '"use strict";\n');
  // The program has no host of this name.
  else if (/\{ a \} from "host"/.test(text)) single('a name of the host', text, `${placed(text, text.indexOf('{ a }') + 2)}: unresolved name "a"`);
  else passes('a tree', { 'main.js': text });
}
if (words.Lexical !== lexicalKinds.length) throw new Error('refusals: the lexical faults and their kinds');
for (const [kind, nested] of deep) {
  const { text, last } = nested(257);
  single('257 of ' + kind, text, `${placed(text, last)}: too deep`, 6);
}
passes('256 of ( )', { 'main.js': '('.repeat(256) + '1' + ')'.repeat(256) });
single('257 of ( alone', '('.repeat(257), 'main.js:1:257: too deep', 6);
single('no semicolon before =>', 'let x = 1, f = x\n=> 1;', 'main.js:2:1: syntax fault');
single('an end too early', 'let x =', 'main.js:1:8: syntax fault');
single('for-in', 'let o = {}, x; for (x in o) ;', 'main.js:1:23: outside the profile U1');
passes('a comment alone', { 'main.js': '// nothing\n' });
passes('behind gaps', { 'main.js': ' /* \u2028 */\r\n\t;' });
single('columns in UTF-16 units', '"\u{1F600}"; let a; let a;', 'main.js:1:18: early error E1');
single('no UTF-8', Buffer.from([0x61, 0xff]), 'main.js: not UTF-8 at byte 1');
single('a surrogate', Buffer.from([0x3b, 0x3b, 0xed, 0xa0, 0x80]), 'main.js: not UTF-8 at byte 2');
single('E before U', 'let a; let a; eval;', 'main.js:1:12: early error E1');
single('E before U, though it stands behind', 'eval; let a; let a;', 'main.js:1:18: early error E1');
single('the least place', 'let a, a; let b, b;', 'main.js:1:8: early error E1');

// 2. Graphs: what a specifier names.
const requests = (specifier) => `import ${specifier};`;
for (const specifier of ['"m"', '"/m.js"', '""', '"."', '".."', '"./"', '"./."', '"./a/.."', '"host2"', '"m/../host"', '"HOST"']) {
  single('a bad specifier', requests(specifier), `main.js:1:8: bad specifier ${specifier}`);
}
single('U+0000', 'import "./a\\0";', 'main.js:1:8: bad specifier "./a\\u0000"');
single('a surrogate alone', 'import "./\\ud800.js";', 'main.js:1:8: bad specifier "./\\ud800.js"');
single('a pair of surrogates', 'import "./\\ud83d\\ude00.js";', 'main.js:1:8: missing module "./\\ud83d\\ude00.js"');
single('quotes and more', "import './\u00e9\"\\\\ \\n.js';", 'main.js:1:8: missing module "./\\u00e9\\"\\\\ \\u000a.js"');
single('no module', 'import "./no.js";', 'main.js:1:8: missing module "./no.js"');
single('no ending is added', 'import "./main";', 'main.js:1:8: missing module "./main"');
refused('a folder up', { 'main.js': 'import "./a/b.js";', 'a/b.js': 'import "../no.js";' }, 'a/b.js:1:8: missing module "../no.js"');
passes('paths in normal form', { 'main.js': 'import ".//a/./x/../b.js";', 'a/b.js': 'import "../main.js"; import "../a//b.js"; import "./../a/b.js";' });
passes('no module of the host', { 'main.js': 'import "host"; import {print, read, count} from "host"; print(read(), count(), 1);' });
refused('a folder', { 'main.js': 'import "./d";', d: null }, 'd: read fault', 3);
compare('the entry is a folder', { 'main.js': null }, ['build', 'main.js'], 3, 'main.js: read fault');
compare('no entry', {}, ['build', './x/../main.js'], 1, 'main.js: missing');
compare('an entry with a dash', { '-m.js': '' }, ['build', '--', '-m.js'], 0, '', '"use strict";\n');

// 3. The order of loading, and of the checks.
refused('depth first', { 'main.js': 'import "./a.js"; import "./b.js";', 'a.js': 'import "./c.js";', 'b.js': '@', 'c.js': '\n@' }, 'c.js:2:1: lexical fault BadCharacter');
refused('in text order', { 'main.js': 'import "./a.js"; import "m";', 'a.js': 'let a; let a;' }, 'a.js:1:12: early error E1');
refused('a module before what it requests', { 'main.js': 'import "./no.js"; let a; let a;' }, 'main.js:1:30: early error E1');
refused('a module that passes before what it requests', { 'main.js': 'import "./a.js"; import "./no.js";', 'a.js': ';' }, 'main.js:1:25: missing module "./no.js"');
refused('loading before linking', { 'main.js': 'import {a} from "./a.js"; import "./no.js";', 'a.js': '' }, 'main.js:1:34: missing module "./no.js"');
refused('too long before UTF-8', { 'main.js': Buffer.alloc(4194305, 0xff) }, 'main.js: file too long', 6);
passes('a ring', { 'main.js': 'import "./a.js"; ;', 'a.js': 'import "./b.js";', 'b.js': 'import "./main.js"; import "./b.js";' });

// 4. Where names end.
const stars = { 's.js': 'export * from "./p.js"; export * from "./q.js";', 'p.js': 'export let k = 1; export default 1;', 'q.js': 'export let k = 1; export let l = 1;' };
refused('two ends', { 'main.js': 'import {k} from "./s.js";', ...stars }, 'main.js:1:9: ambiguous name "k"');
passes('one end', { 'main.js': 'import {l} from "./s.js"; l;', ...stars });
refused('no end', { 'main.js': 'import {l as k, m} from "./s.js";', ...stars }, 'main.js:1:17: unresolved name "m"');
refused('default comes by no star', { 'main.js': 'import d from "./s.js";', ...stars }, 'main.js:1:8: unresolved name "default"');
passes('default', { 'main.js': 'import d from "./p.js"; import {default as e} from "./p.js"; d + e;', ...stars });
passes('a namespace wants nothing', { 'main.js': 'import * as s from "./s.js"; s;', ...stars });
refused('a name handed on', { 'main.js': 'export {m as n} from "./s.js";', ...stars }, 'main.js:1:9: unresolved name "m"');
refused('modules in load order', { 'main.js': 'import "./a.js"; import {x} from "./s.js";', 'a.js': 'import {y} from "./s.js";', ...stars }, 'main.js:1:26: unresolved name "x"');
refused('the next module', { 'main.js': 'import "./a.js";', 'a.js': '\nimport {k as y} from "./s.js";', ...stars }, 'a.js:2:9: ambiguous name "k"');
refused('its own export hides the stars', { 'main.js': 'import {k} from "./t.js";', 't.js': 'export {k} from "./r.js"; export * from "./p.js";', 'r.js': '', 'p.js': 'export let k;' }, 'main.js:1:9: unresolved name "k"');
passes('one binding by two paths', { 'main.js': 'import {k} from "./s.js"; k;', 's.js': 'export * from "./p.js"; export * from "./q.js";', 'p.js': 'export let k;', 'q.js': 'export {k} from "./p.js";' });
refused('a ring of names', { 'main.js': 'import {k} from "./a.js";', 'a.js': 'export {k} from "./b.js";', 'b.js': 'export {k} from "./a.js";' }, 'main.js:1:9: unresolved name "k"');
passes('a ring of stars', { 'main.js': 'import {k} from "./a.js"; k;', 'a.js': 'export * from "./b.js";', 'b.js': 'export * from "./a.js"; export let k;' });
refused('a host that isn\'t there', { 'main.js': 'import {print, none} from "host";' }, 'main.js:1:16: unresolved name "none"');
refused('a host by a module', { 'main.js': 'import {p} from "./a.js";', 'a.js': 'import {print as p} from "host"; p();' }, 'main.js:1:9: unresolved name "p"');
refused('a name beyond ASCII', { 'main.js': 'import {\u00e9\u{2000b}} from "./a.js";', 'a.js': '' }, 'main.js:1:9: unresolved name "\\u00e9\\ud840\\udc0b"');

// 5. Limits.
const spaces = (count) => Buffer.alloc(count, 0x20);
compare('4,194,304 spaces', { 'main.js': spaces(4194304) }, ['build', 'main.js'], 0, '', '"use strict";\n');
refused('one more', { 'main.js': spaces(4194305) }, 'main.js: file too long', 6);
refused('one more in a module', { 'main.js': 'import "./a.js";', 'a.js': spaces(4194305) }, 'a.js: file too long', 6);
const five = 'import "./a.js"; import "./b.js"; import "./c.js"; import "./d.js";';
const long = (last) => ({ 'main.js': five, 'a.js': spaces(4194304), 'b.js': spaces(4194304), 'c.js': spaces(4194304), 'd.js': spaces(last) });
passes('16,777,216 bytes', long(4194304 - five.length));
refused('a byte more', long(4194305 - five.length), 'd.js: graph too long', 6);
const many = (count) => {
  const files = { 'main.js': '' };
  for (let i = 1; i < count; i++) { files['main.js'] += `import "./m${i}.js";\n`; files[`m${i}.js`] = ';'; }
  return files;
};
passes('1,024 modules', many(1024));
refused('1,025 modules', many(1025), 'main.js:1024:8: too many modules', 6);
const full = many(1024);
full['main.js'] += 'import "./m1.js"; import "m"; import "./no.js";';
refused('a module that is there, and then none by a specifier', full, 'main.js:1024:26: bad specifier "m"');
full['main.js'] = full['main.js'].replace('import "m";', '');
refused('one too many before it is missing', full, 'main.js:1024:27: too many modules', 6);

// 6. Words.
const usage = 'usage: es5c build ENTRY / split ENTRY / rebuild ENTRY LIST / run ENTRY [--steps N] / run5 SCRIPT [--steps N] / map SCRIPT / sample N';
for (const wrong of [[], ['build'], ['build', ''], ['build', '/'], ['build', 'a/..'], ['build', 'main.js', 'main.js'], ['build', '--steps=1', 'main.js'], ['build', '-m.js'], ['build', '--help'], ['--version'], ['run'], ['run', '--steps=0', 'main.js'], ['run', '--steps'], ['run', '--steps', 'main.js'], ['run5', '--steps=1099511627777', 'main.js'], ['rebuild', 'main.js'], ['sample', '1001'], ['link', 'main.js']]) {
  compare('words: ' + JSON.stringify(wrong), { 'main.js': '' }, wrong, 2, usage);
}
for (const words of [['build', './a/..//main.js'], ['build', '--', 'main.js']]) compare(`words: ${words.join(' ')}`, { 'main.js': '' }, words, 0, '', '"use strict";\n');
compare('words: run', { 'main.js': '' }, ['run', 'main.js', '--steps', '7'], 0, '', 'ended\n');
compare('words: sample', {}, ['sample', '0001'], 0, '', 'sample 1: modules 2, events 2, same\n');
compare('words: rebuild', { 'main.js': '' }, ['rebuild', 'main.js', 'a/../list.txt'], 1, 'list.txt: missing');

// 7. What is written: scripts of the first forms, worked by hand from their rules, and the text of a map.
for (const [text, script] of [
  ['import {print} from "host";\nprint(1+2);', 'print(1 + 2);\n'],
  ['import {print, count} from "host";\nconst a = count(); let b = a + "x"; print(b, 1 + 2);\n', 'var a$ = count();\nvar b$ = a$ + "x";\nprint(b$, 1 + 2);\n'],
  ['let print = 9007199254740991;', 'var print$ = 9007199254740991;\n'],
]) compare(`built: ${text}`, { 'main.js': text }, ['build', 'main.js'], 0, '', `"use strict";\n${script}`);
const mapped = (mappings) => '"use strict";\n//# sourceMappingURL=data:application/json;base64,' +
  Buffer.from(`{"version":3,"sources":["a.js"],"names":[],"mappings":"${mappings}"}`).toString('base64') + '\n';
compare('a map', { 'main.js': mapped('AAAA') }, ['map', 'main.js'], 0, '', '{"version":3,"sources":["a.js"],"names":[],"mappings":"AAAA"}\n');
compare('no map', { 'main.js': '1;' }, ['map', 'main.js'], 1, 'main.js: map fault NoMap');
compare('a source that is none', { 'main.js': mapped('AAAA,AAAA') }, ['map', 'main.js'], 1, 'main.js: map fault BadIndex at 5');

// 8. What can't be written: the output, or the line of a refusal.
if (fs.existsSync('/dev/full')) {
  const fullDisk = fs.openSync('/dev/full', 'w');
  const folder = path.join(work, 'full');
  fs.mkdirSync(folder);
  for (const [text, stdio] of [['', ['ignore', fullDisk, 'pipe']], ['*', ['ignore', 'pipe', fullDisk]]]) {
    fs.writeFileSync(path.join(folder, 'main.js'), text);
    const run = spawnSync(program, ['build', 'main.js'], { cwd: folder, stdio });
    compared++;
    const rest = run.stdout || run.stderr;
    if (run.status === 4 && rest.length === 0) continue;
    failed++;
    console.log(`refusals: a full disk: wanted 4, got ${run.status} and ${JSON.stringify(rest.toString().slice(0, 300))}`);
  }
}

fs.rmSync(work, { recursive: true });
console.log(`refusals: ${compared} compared, ${failed} differ`);
process.exit(failed === 0 && compared >= 558 ? 0 : 1);

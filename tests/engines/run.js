// Plays modules with `run`: the rows of rows_data.js and exits_data.js and the folders of programs/, whose lines are known; graphs that are refused; hosts and
// streams that fail; and runs that are stopped after each number of steps. Besides what `sample` writes. No line is taken from the program.
// Usage: node run.js ES5C [NAME ..]
'use strict';
const { spawnSync } = require('child_process');
const fs = require('fs');
const os = require('os');
const path = require('path');
const { rows, host } = require('./rows_data.js');
const exits = require('./exits_data.js');

const [command, ...only] = process.argv.slice(2);
const work = fs.mkdtempSync(path.join(os.tmpdir(), 'run-'));
process.on('exit', () => fs.rmSync(work, { recursive: true, force: true }));
const programs = path.join(__dirname, 'programs');

function run(folder, words, { input = '', output = 'pipe' } = {}) {
  const { status, stdout, stderr, signal } = spawnSync(command, words, { cwd: folder, encoding: 'utf8', maxBuffer: 1 << 28, input, stdio: ['pipe', output, 'pipe'] });
  return { status: status === null ? signal : status, stdout, stderr };
}

// a folder with these files, of which one that is null is a folder, so that it can't be read
function folderOf(files) {
  const folder = fs.mkdtempSync(path.join(work, 'row-'));
  for (const [name, text] of Object.entries(files)) {
    if (text === null) fs.mkdirSync(path.join(folder, name));
    else fs.writeFileSync(path.join(folder, name), text);
  }
  return folder;
}

// the status that belongs to a last line
function statusOf(line) {
  return line === 'ended' ? 0 : line.startsWith('threw ') ? 7 : line.startsWith('left X') ? 8 : 9;
}

function same(got, status, out, error = '') {
  if (got.status === status && got.stdout === out && got.stderr === error) return null;
  const lines = got.stdout.split('\n'), due = out.split('\n');
  const at = due.findIndex((line, i) => line !== lines[i]);
  return `status ${got.status}, not ${status}, ${JSON.stringify(got.stderr.slice(0, 300))}, line ${at + 1} is ${JSON.stringify(lines[at])}, not ${JSON.stringify(due[at])}`;
}

let [played, failed] = [0, 0];
function play(name, faultOf) {
  if (only.length > 0 && !only.includes(name)) return;
  played++;
  const fault = faultOf();
  if (!fault) return;
  failed++;
  console.log(`run: ${name}: ${fault}`);
}

// How a run differs from these lines.
function lineFault(folder, lines, { words = ['main.js'], input = '' } = {}) {
  return same(run(folder, ['run', '--steps', '100000000', ...words], { input }), statusOf(lines[lines.length - 1]), lines.join('\n') + '\n');
}

// How a run differs from one that shows these lines, and leaves with a last line that begins so.
function exitFault(folder, lines, leaves) {
  const { status, stdout, stderr } = run(folder, ['run', '--steps', '100000000', 'main.js']);
  const shown = stdout.trimEnd().split('\n');
  const last = shown.pop();
  return last.startsWith(leaves) && status === 8 && stderr === '' && shown.join('\n') === lines.join('\n') ? null : `status ${status}, ${JSON.stringify(last)} behind ${shown.length} lines, ${JSON.stringify(stderr)}`;
}

// ---- the rows of programs, with the hosts that the program has

for (const row of rows) {
  const files = row.files || { 'main.js': host + row.text };
  // texts as long as a module may be are the readers' alone
  if (row.words && row.words[0] !== 'build' || Object.values(files).some((text) => text && text.length > 1 << 20)) continue;
  const words = (row.words || ['build', 'main.js']).slice(1);
  if (row.refused && row.status !== 2) play(row.name, () => same(run(folderOf(files), ['run', ...words]), row.status || 1, '', row.refused + '\n'));
  if (row.lines && !row.answers) play(row.name, () => lineFault(folderOf(files), row.leaves ? [...row.lines, row.leaves] : row.lines, { words }));
}

// ---- both sides of the exits, and where runs leave

for (const [text, ...lines] of exits.rows) {
  const last = lines[lines.length - 1];
  const folder = () => folderOf({ 'main.js': exits.head + text });
  if (!last.startsWith('left ')) play(text, () => lineFault(folder(), lines));
  else play(text, () => exitFault(folder(), lines.slice(0, -1), `left X${last.slice(5)} at main.js:1:`));
}
for (const [number, marked] of exits.leaving) {
  const column = (exits.head + marked).indexOf('¦') + 1;
  play(marked, () => {
    const { status, stdout, stderr } = run(folderOf({ 'main.js': exits.head + marked.replace('¦', '') }), ['run', 'main.js']);
    const last = stdout.trimEnd().split('\n').pop();
    return last === `left X${number} at main.js:1:${column}` && status === 8 && stderr === '' ? null : `status ${status}, ${JSON.stringify(last)}, not X${number} in column ${column}`;
  });
}

// ---- the folders of programs

// those that leave the profile where an engine goes on, behind so many of the expected lines: by a number of undefined, a power that isn't safe, and a
// write of a static that a parent was given later
const leaving = {
  const_assignments: [4, 'left X1 at '], expressions_powers: [6, 'left X1 at '], modules_live_bindings: [6, 'left X1 at '], odd_classes_static_chains_and_super: [2, 'left X6 at main.js:9:1'],
  odd_statements_without_semicolons_and_odd_layout: [11, 'left X1 at '],
};

// What `read` is to give, as lines of the standard input, if the program's own hosts can give a folder's answers.
function inputOf(folder) {
  const file = path.join(folder, 'answers');
  if (!fs.existsSync(file)) return '';
  const answers = JSON.parse(fs.readFileSync(file, 'utf8'));
  const texts = answers.read || [];
  const isGiven = Object.keys(answers).every((name) => name === 'read') && texts.every((text) => typeof text === 'string' && !text.includes('\n'));
  return isGiven ? texts.map((text) => text + '\n').join('') : null;
}

for (const name of fs.readdirSync(programs)) {
  const folder = path.join(programs, name);
  const input = inputOf(folder);
  if (input === null) continue;
  const lines = fs.readFileSync(path.join(folder, 'expected'), 'utf8').trimEnd().split('\n');
  const [count, leaves] = leaving[name] || [];
  play(name, () => leaves ? exitFault(folder, lines.slice(0, count), leaves) : lineFault(folder, lines, { input }));
}

// ---- hosts and streams

const three = 'import {print, read, count} from "host"; ';
const hosts = [
  { name: 'lines that are read', text: 'print(read(), read(), read());', input: 'a\nb', out: ['read()', 'read()', 'read()', 'print("a", "b", null)', 'ended'] },
  { name: 'a count', text: 'print(count() + count()); print(count());', out: ['count()', 'count()', 'print(1)', 'count()', 'print(2)', 'ended'] },
  { name: 'what print answers', text: 'print(print(1) === undefined);', out: ['print(1)', 'print(true)', 'ended'] },
  { name: 'a host that fails', text: 'print(1); read(); print(2);', input: Buffer.from([0xff, 10]), out: ['print(1)', 'read()'], status: 10, error: 'host "read" failed\n' },
  { name: 'a host that fails under a try', text: 'try { read(); } catch (e) { print(e); } finally { print(3); }', input: Buffer.from([0xc3, 10]), out: ['read()'], status: 10, error: 'host "read" failed\n' },
  { name: 'an object for a host', text: 'print(1); print({});', out: ['print(1)', 'threw TypeError'], status: 7 },
  { name: 'an error that is thrown', text: 'throw new RangeError("x");', out: ['threw RangeError'], status: 7 },
  { name: 'a text that is thrown', text: 'print("\\u00e9"); throw "a\\"b";', out: ['print("\\u00e9")', 'threw "a\\"b"'], status: 7 },
  { name: 'an object that is thrown', text: 'throw { };', out: ['threw Object'], status: 7 },
];
for (const { name, text, input, out, status = 0, error = '' } of hosts) {
  play(name, () => same(run(folderOf({ 'main.js': three + text }), ['run', 'main.js'], { input }), status, out.map((line) => line + '\n').join(''), error));
}
play('a full disk', () => {
  if (!fs.existsSync('/dev/full')) return null;
  const { status, stderr } = run(folderOf({ 'main.js': three + 'print(1); print(2);' }), ['run', 'main.js'], { output: fs.openSync('/dev/full', 'w') });
  return status === 4 && stderr === '' ? null : `status ${status}, ${JSON.stringify(stderr)}`;
});
play('a module that can\'t be read', () => same(run(folderOf({ 'main.js': 'import "./b.js";', 'b.js': null }), ['run', 'main.js']), 3, '', 'b.js: read fault\n'));
play('no entry', () => same(run(folderOf({}), ['run', 'main.js']), 1, '', 'main.js: missing\n'));
play('an exit in another module', () => same(run(folderOf({ 'main.js': `${three}import {f} from "./k.js"; print(1); f();`, 'k.js': 'export function f() {\n  return 7 / 2;\n}' }), ['run', 'main.js']), 8,
  'print(1)\nleft X1 at k.js:2:10\n'));

// ---- runs that are stopped

play('a loop without end', () => same(run(folderOf({ 'main.js': 'while (true) ;' }), ['run', 'main.js', '--steps', '100']), 9, 'still running after 100 steps\n'));
play('each number of steps', () => {
  const folder = folderOf({ 'main.js': three + 'let f = () => count(); print(f()); print(2);' });
  const lines = ['count()', 'print(0)', 'print(2)'];
  let shown = 0;
  for (let steps = 1; steps < 200; steps++) {
    const { status, stdout, stderr } = run(folder, ['run', 'main.js', `--steps=${steps}`]);
    const got = stdout.trimEnd().split('\n');
    const last = got.pop();
    if (got.join('\n') !== lines.slice(0, got.length).join('\n') || got.length < shown || stderr !== '') return `after ${steps} steps ${JSON.stringify(stdout)}`;
    if (got.length > shown + 1) return `two events come with step ${steps}`;
    shown = got.length;
    if (last === 'ended') return status === 0 && shown === 3 ? null : `it ends after ${steps} steps`;
    if (last !== `still running after ${steps} steps` || status !== 9) return `after ${steps} steps ${JSON.stringify(last)}, status ${status}`;
  }
  return 'it doesn\'t end';
});

// ---- the sample graph

for (const [count, events] of [[1, 2], [2, 5], [10, 30]]) {
  play(`a sample of ${count}`, () => same(run(work, ['sample', String(count)]), 0, `sample ${count}: modules ${count + 1}, events ${events}, same\n`));
}

console.log(`run: ${played} played, ${failed} differ`);
process.exitCode = failed === 0 ? 0 : 1;

// Plays scripts with `run5`: those that `build` makes of the rows of rows_data.js and of the folders of programs/, whose lines are known, and small ones with
// the lines and statuses that the rules give them. Usage: node run5.js ES5C [NAME ..]
'use strict';
const { spawnSync } = require('child_process');
const fs = require('fs');
const os = require('os');
const path = require('path');
const { rows, host } = require('./rows_data.js');

const [command, ...only] = process.argv.slice(2);
const work = fs.mkdtempSync(path.join(os.tmpdir(), 'run5-'));
process.on('exit', () => fs.rmSync(work, { recursive: true, force: true }));

function run(folder, words, input) {
  const { status, stdout, stderr } = spawnSync(command, words, { cwd: folder, encoding: 'utf8', maxBuffer: 1 << 28, input: input || '' });
  return { status, stdout, stderr };
}

// The status that belongs to a last line.
function statusOf(line) {
  return line === 'ended' ? 0 : line.startsWith('threw ') ? 7 : line.startsWith('left X') ? 8 : 9;
}

// How the run of a row's script differs from the row's lines; its modules are those of the row, or lie in the folder that it names.
function rowFault(row, folder) {
  if (!row.lies) for (const [name, text] of Object.entries(row.files || { 'main.js': host + row.text })) fs.writeFileSync(path.join(folder, name), text);
  const built = run(row.lies || folder, ['build', 'main.js']);
  if (built.status !== 0) return `it isn't built: ${built.stderr}`;
  fs.writeFileSync(path.join(folder, 'script.js'), built.stdout);
  const { status, stdout, stderr } = run(folder, ['run5', '--steps', '100000000', 'script.js']);
  const lines = stdout.trimEnd().split('\n');
  const shown = row.leaves ? lines.slice(0, row.lines.length) : lines;
  if (shown.join('\n') !== row.lines.join('\n')) return JSON.stringify(lines.slice(0, 12));
  const due = statusOf(lines[lines.length - 1]);
  return status === due && stderr === '' ? null : `status ${status}, not ${due}, ${JSON.stringify(stderr)}`;
}

// The folders whose scripts leave the profile, since numbers become no safe ones there (X1); the lines up to there are the expected ones.
const leaving = ['const_assignments', 'expressions_powers', 'modules_live_bindings', 'odd_statements_without_semicolons_and_odd_layout'];
const programs = path.join(__dirname, 'programs');

function programOf(name) {
  const lies = path.join(programs, name);
  return { name, lies, lines: fs.readFileSync(path.join(lies, 'expected'), 'utf8').trimEnd().split('\n'), isLeft: leaving.includes(name) };
}

// How the run of a folder's script differs from the expected lines.
function programFault(program, folder) {
  if (!program.isLeft) return rowFault(program, folder);
  const fault = rowFault({ ...program, lines: [], leaves: true }, folder);
  if (fault) return fault;
  const lines = run(folder, ['run5', '--steps', '100000000', 'script.js']).stdout.trimEnd().split('\n');
  const last = lines.pop();
  return last.startsWith('left X1 ') && lines.join('\n') === program.lines.slice(0, lines.length).join('\n') ? null : JSON.stringify(last);
}

const strict = '"use strict"; ';
const scripts = [
  { name: 'a script that ends', text: `${strict}print(1 + 2);`, out: 'print(3)\nended\n', status: 0 },
  { name: 'hosts that answer', text: `${strict}print(read(), read(), read()); print(count() + count());`, input: 'a\nb', out: 'read()\nread()\nread()\nprint("a", "b", null)\ncount()\ncount()\nprint(1)\nended\n', status: 0 },
  { name: 'an error', text: `${strict}throw new TypeError("x");`, out: 'threw TypeError\n', status: 7 },
  { name: 'a text that is thrown', text: `${strict}print("\\u00e9"); throw "a\\"b";`, out: 'print("\\u00e9")\nthrew "a\\"b"\n', status: 7 },
  { name: 'a name that nothing binds', text: `${strict}nothing;`, out: 'threw ReferenceError\n', status: 7 },
  { name: 'a number that is no safe one', text: `${strict}print(9007199254740991 + 1);`, leaves: 1, status: 8 },
  { name: 'a loop without end', text: `${strict}for (;;) {}`, words: ['--steps', '1000'], out: 'still running after 1000 steps\n', status: 9 },
  { name: 'no file', text: null, refused: 'script.js: missing', status: 1 },
  { name: 'no directive', text: 'var a;', refused: 'script.js:1:1: outside the profile V1', status: 1 },
  { name: 'two parameters of one name', text: `${strict}function f(a, a) {}`, refused: 'script.js:1:29: early error F1', status: 1 },
  { name: 'no token', text: `${strict}#`, refused: 'script.js:1:15: lexical fault', status: 1 },
  { name: 'no statement', text: `${strict}var;`, refused: 'script.js:1:18: syntax fault', status: 1 },
  { name: 'a statement that is left out', text: `${strict}\n  with (a) {}`, refused: 'script.js:2:3: outside the profile V2', status: 1 },
  { name: 'no UTF-8', text: Buffer.from(`${strict}\xff`, 'latin1'), refused: 'script.js: not UTF-8 at byte 14', status: 1 },
];

function scriptFault(row, folder) {
  if (row.text !== null) fs.writeFileSync(path.join(folder, 'script.js'), row.text);
  const { status, stdout, stderr } = run(folder, ['run5', ...(row.words || []), 'script.js'], row.input);
  const isLeft = row.leaves && new RegExp(`^left X${row.leaves} at script\\.js:[0-9]+:[0-9]+\\n$`).test(stdout);
  const isSaid = stderr === (row.refused ? row.refused + '\n' : '') && (isLeft || stdout === (row.out || ''));
  return isSaid && status === row.status ? null : `status ${status}, ${JSON.stringify(stdout)}, ${JSON.stringify(stderr)}`;
}

let [played, failed] = [0, 0];
function play(row, faultOf) {
  if (only.length > 0 && !only.includes(row.name)) return;
  played++;
  const fault = faultOf(row, fs.mkdtempSync(path.join(work, 'row-')));
  if (!fault) return;
  failed++;
  console.log(`run5: ${row.name}: ${fault}`);
}
for (const row of scripts) play(row, scriptFault);
for (const name of fs.readdirSync(programs)) if (!fs.existsSync(path.join(programs, name, 'answers'))) play(programOf(name), programFault);
for (const row of rows) if (row.lines && !row.answers && !row.words) play(row, rowFault);
console.log(`run5: ${played} played, ${failed} differ`);
process.exitCode = failed === 0 ? 0 : 1;

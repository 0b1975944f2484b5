// Runs `es5c rebuild main.js edits.txt` in folders of a few files. Each expected line, event and status is worked out from the rules of the command, none
// from the program. Usage: node --expose-internals rebuild.js ES5C
'use strict';
const { spawnSync } = require('child_process');
const fs = require('fs');
const os = require('os');
const path = require('path');
const { runScripts } = require('./programs_run.js');
const { host } = require('./rows_data.js');

const program = process.argv[2];
const work = fs.mkdtempSync(path.join(os.tmpdir(), 'rebuild-'));
process.on('exit', () => fs.rmSync(work, { recursive: true, force: true }));
let [compared, failed] = [0, 0];

// What the command leaves in a folder with these files, of which one that is null is a folder, so that it can't be read.
function left(files) {
  const folder = fs.mkdtempSync(path.join(work, 'run-'));
  for (const [name, text] of Object.entries(files)) {
    if (text === null) fs.mkdirSync(path.join(folder, name));
    else fs.writeFileSync(path.join(folder, name), text);
  }
  return spawnSync(program, ['rebuild', 'main.js', 'edits.txt'], { cwd: folder, maxBuffer: 1 << 28 });
}

function compare(name, fault) {
  compared++;
  if (!fault) return;
  failed++;
  console.log(`rebuild: ${name}: ${fault}`);
}

// The builds that an output tells: of an accepted one a line with its numbers, and its script; of a refused one its line.
function buildsOf(output) {
  const builds = [];
  for (let at = 0; at < output.length;) {
    const end = output.indexOf(10, at);
    const line = output.subarray(at, end).toString();
    at = end + 1;
    const accepted = /^build: modules (0|[1-9]\d*), parsed (0|[1-9]\d*), bytes (0|[1-9]\d*)$/.exec(line);
    if (accepted) {
      const bytes = Number(accepted[3]);
      if (at + bytes > output.length) throw new Error('a script is cut off');
      builds.push({ modules: Number(accepted[1]), parsed: Number(accepted[2]), text: output.subarray(at, at + bytes).toString() });
      at += bytes;
    } else builds.push({ line });
  }
  return builds;
}

// What differs in one build from what is wanted: numbers and events, or the line of a refusal.
function difference(build, wanted) {
  if (wanted.refused !== undefined) return build.line === `refused ${wanted.refused}` ? null : `${JSON.stringify(build.line)}, not "refused ${wanted.refused}"`;
  if (build.modules !== wanted.modules || build.parsed !== wanted.parsed) return `modules ${build.modules}, parsed ${build.parsed}, not ${wanted.modules} and ${wanted.parsed}`;
  const { lines } = runScripts([{ name: 'the script', text: build.text }], {});
  return lines.join('\n') === wanted.lines.join('\n') ? null : `${JSON.stringify(lines)}, not ${JSON.stringify(wanted.lines)}`;
}

function builds(name, files, wanted) {
  const run = left(files);
  if (run.status !== 0 || run.stderr.length > 0) return compare(name, `status ${run.status}, ${JSON.stringify(run.stderr.toString().slice(0, 300))}`);
  const got = buildsOf(run.stdout);
  if (got.length !== wanted.length) return compare(name, `${got.length} builds, not ${wanted.length}`);
  const faults = got.map((build, at) => difference(build, wanted[at])).map((fault, at) => fault && `build ${at + 1}: ${fault}`).filter((fault) => fault);
  compare(name, faults.join('; '));
}

function refused(name, files, line, status = 1) {
  const run = left(files);
  if (run.status === status && run.stdout.length === 0 && run.stderr.toString() === line + '\n') return compare(name, null);
  compare(name, `status ${run.status}, ${JSON.stringify(run.stderr.toString().slice(0, 300))} and ${run.stdout.length} bytes on the output, not ${status} and ${JSON.stringify(line)}`);
}

const main = `${host}import {n, inc} from "./c.js"; print(n); inc(); print(n); try { n = 5; } catch (e) { print(e instanceof TypeError); }`;
const counter = (n) => `export let n = ${n}; export function inc() { n++; }`;
const graph = { 'main.js': main, 'c.js': counter(0), 'd.js': counter(5) };
const events = (n) => [`print(${n})`, `print(${n + 1})`, 'print(true)', 'ended'];

// The same bytes are parsed once, also over a refused build; others at the same path are parsed again.
builds('a module that changes and comes back', { ...graph, 'edits.txt': 'build\nput c.js d.js\nbuild\nbuild\ndrop c.js\nbuild\nput c.js d.js\nbuild\n' }, [
  { modules: 2, parsed: 2, lines: events(0) },
  { modules: 2, parsed: 1, lines: events(5) },
  { modules: 2, parsed: 0, lines: events(5) },
  { refused: 'main.js:2:22: missing module "./c.js"' },
  { modules: 2, parsed: 0, lines: events(5) },
]);
// What passed in a refused build is kept, and what has a fault isn't.
builds('a build that is refused', { ...graph, 'bad.js': 'let', 'edits.txt': 'put c.js bad.js\nbuild\nput c.js d.js\nbuild\n' }, [
  { refused: 'c.js:1:4: syntax fault' },
  { modules: 2, parsed: 1, lines: events(5) },
]);
// A module that comes back with the bytes that it had before the last ones is parsed again.
builds('a module with its first bytes', { ...graph, 'edits.txt': 'build\nput c.js d.js\nbuild\ndrop c.js\nput c.js c.js\nbuild\n' }, [
  { modules: 2, parsed: 2, lines: events(0) },
  { modules: 2, parsed: 1, lines: events(5) },
  { modules: 2, parsed: 1, lines: events(0) },
]);
// All modules of a build that is refused where it is linked are kept.
builds('a name that is no longer there', { ...graph, 'e.js': 'export let m = 1;', 'edits.txt': 'put c.js e.js\nbuild\nbuild\nput c.js d.js\nbuild\n' }, [
  { refused: 'main.js:2:9: unresolved name "n"' },
  { refused: 'main.js:2:9: unresolved name "n"' },
  { modules: 2, parsed: 1, lines: events(5) },
]);
builds('the same bytes again', { ...graph, 'edits.txt': 'build\nput c.js c.js\nput e.js d.js\nbuild\n' }, [
  { modules: 2, parsed: 2, lines: events(0) },
  { modules: 2, parsed: 0, lines: events(0) },
]);
builds('the entry dropped', { ...graph, 'edits.txt': 'build\ndrop main.js\nbuild\nput main.js main.js\nbuild\n' }, [
  { modules: 2, parsed: 2, lines: events(0) },
  { refused: 'main.js: missing' },
  { modules: 2, parsed: 0, lines: events(0) },
]);
builds('a file that is too long', { ...graph, 'long.js': ' '.repeat(4194305), 'edits.txt': 'put c.js long.js\nbuild\n' }, [{ refused: 'c.js: file too long' }]);
builds('one of the first forms', { 'main.js': `${host}print(1);`, 'edits.txt': 'build\n' }, [{ modules: 1, parsed: 1, lines: ['print(1)', 'ended'] }]);
builds('no build', { 'edits.txt': 'drop c.js\n' }, []);
builds('an empty list', { 'edits.txt': '' }, []);

refused('a line that is no edit', { ...graph, 'edits.txt': 'build\nbiuld\n' }, 'edits.txt:2:1: bad edit');
refused('two spaces', { ...graph, 'edits.txt': 'put  c.js d.js\n' }, 'edits.txt:1:1: bad edit');
refused('a line that does not end', { ...graph, 'edits.txt': 'build\nbuild' }, 'edits.txt:2:1: bad edit');
refused('a path that is not in normal form', { ...graph, 'edits.txt': 'drop ./c.js\n' }, 'edits.txt:1:1: bad edit');
refused('one build too many', { ...graph, 'edits.txt': 'build\n'.repeat(101) }, 'edits.txt:101:1: bad edit');
refused('no list', graph, 'edits.txt: missing');
refused('a list that is no UTF-8', { ...graph, 'edits.txt': Buffer.from([0x62, 0xff]) }, 'edits.txt: not UTF-8 at byte 1');
refused('a list that is too long', { 'edits.txt': 'build\n'.repeat(1 << 20) }, 'edits.txt: file too long', 6);
refused('a list that cannot be read', { 'edits.txt': null }, 'edits.txt: read fault', 3);
refused('no file to put', { ...graph, 'edits.txt': 'build\nput c.js no.js\n' }, 'edits.txt:2:1: missing file "no.js"');
refused('a file to put that cannot be read', { ...graph, 'no.js': null, 'edits.txt': 'put c.js no.js\n' }, 'no.js: read fault', 3);
refused('an entry that cannot be read', { 'main.js': null, 'edits.txt': 'build\n' }, 'main.js: read fault', 3);

console.log(`rebuild: ${compared} compared, ${failed} differ`);
process.exitCode = failed === 0 ? 0 : 1;

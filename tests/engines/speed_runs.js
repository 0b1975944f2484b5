// Measures how long scripts run: ours, and what Babel makes of the same modules, of the ten programs of programs/ that run longest, in each engine that is
// there. A script is read once and then run again and again, with hosts that do nothing. Not in the gate.
// Usage: NODE_PATH=/usr/share/nodejs node speed_runs.js ES5C [NAME ..], where names pick the programs.
'use strict';
const { spawnSync } = require('child_process');
const fs = require('fs');
const os = require('os');
const path = require('path');
const { compile } = require('./speed_compile.js');

const [command, ...named] = process.argv.slice(2);
const programs = path.join(__dirname, 'programs');
const engines = ['node', 'duk', 'mujs'].filter((name) => process.env.PATH.split(':').some((folder) => fs.existsSync(path.join(folder, name))));
const work = fs.mkdtempSync(path.join(os.tmpdir(), 'speed-'));
process.on('exit', () => fs.rmSync(work, { recursive: true, force: true }));

// The modules of a program as one script around what the compiler makes of each. Small engines have no Symbol of their own.
function bundle(folder, compiled) {
  const files = fs.readdirSync(folder, { recursive: true }).filter((file) => file.endsWith('.js'));
  const parts = files.map((name) => `modules[${JSON.stringify(name)}] = function (require, exports, module) {\n${compiled(fs.readFileSync(path.join(folder, name), 'utf8'))}\n};\n`);
  return `if (typeof Symbol === "undefined") Symbol = { iterator: "@@iterator" };
var modules = {}, made = {};
function joined(from, to) {
  var parts = from.split("/").slice(0, -1).concat(to.split("/")), out = [], i;
  for (i = 0; i < parts.length; i++) if (parts[i] === "..") out.pop(); else if (parts[i] !== "." && parts[i] !== "") out.push(parts[i]);
  return out.join("/");
}
function load(name) {
  if (!made[name]) {
    made[name] = { exports: {} };
    modules[name](function (to) { return to === "host" ? { print: print, read: read, count: count } : load(joined(name, to)); }, made[name].exports, made[name]);
  }
  return made[name].exports;
}
${parts.join('')}load("main.js");
`;
}

// the milliseconds of a run of a script in an engine, over at least so many of them, or why there are none
function milliseconds(engine, text, least) {
  const file = path.join(work, 'run.js');
  fs.writeFileSync(file, `var say = typeof print === "undefined" ? function (line) { console.log(line); } : print;
var run = new Function("print", "read", "count", ${JSON.stringify(text)}), runs = 0, begun, taken, last = "";
function quiet() {}
begun = new Date().getTime();
do {
  try { run(quiet, quiet, quiet); } catch (error) { last = String(error).split("\\n")[0]; }
  runs = runs + 1;
  taken = new Date().getTime() - begun;
} while (taken < ${least});
say(taken / runs + " " + last);
`);
  const { stdout, stderr } = spawnSync(engine, [file], { encoding: 'utf8', timeout: 120000 });
  const shown = /^([\d.e-]+) (.*)/.exec(stdout || '');
  return shown ? { time: Number(shown[1]), thrown: shown[2] } : { thrown: (stderr || 'nothing is printed').split('\n')[0] };
}

function scriptOf(folder) {
  const { status, stdout } = spawnSync(command, ['build', 'main.js'], { cwd: folder, encoding: 'utf8', maxBuffer: 1 << 28 });
  return status === 0 ? stdout : null;
}

function heaviest() {
  const quiet = fs.readdirSync(programs).filter((name) => !fs.existsSync(path.join(programs, name, 'answers')));
  const times = quiet.map((name) => ({ name, time: milliseconds(engines.includes('duk') ? 'duk' : 'node', scriptOf(path.join(programs, name)), 20).time || 0 }));
  return times.sort((a, b) => b.time - a.time).slice(0, 10).map(({ name }) => name);
}

const babel = compile('babel');
const shown = ({ time, thrown }, other) => time === undefined ? thrown : `${time.toFixed(3)} ms${thrown && thrown !== other.thrown ? `, throws ${thrown}` : ''}`;
for (const name of named.length > 0 ? named : heaviest()) {
  const folder = path.join(programs, name);
  const [ours, theirs] = [scriptOf(folder), bundle(folder, babel)];
  for (const engine of engines) {
    const [own, other] = [milliseconds(engine, ours, 500), milliseconds(engine, theirs, 500)];
    console.log(`${name} in ${engine}: ${shown(own, other)}; by Babel ${shown(other, own)}`);
  }
}

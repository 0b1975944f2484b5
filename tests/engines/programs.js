// Builds whole programs and compares what the scripts do in each engine with what the modules mean: the folders of programs/, each with its modules,
// the hosts' answers and the expected lines; or random programs, whose lines are those of node's own modules. `split` makes a script for each
// module, of the folders that have several.
// Usage: node --expose-internals --experimental-vm-modules programs.js ES5C folders [NAME ..] | split [NAME ..] | random SEED COUNT
//
// Of a folder, `expected` is held to node's own modules too. Where these differ from the rules, the file `why` says so; `without` has a line
// `ENGINE: reason` for each small engine that is at fault itself. That they do differ is seen in both cases.
'use strict';
const { spawnSync } = require('child_process');
const fs = require('fs');
const os = require('os');
const path = require('path');
const { runModules, runScripts, runEngine, toldBy, mappedPlaces, ownPlaces, hasPackage } = require('./programs_run.js');
const { scriptsOf, textFaults } = require('./split_texts.js');
const { randomProgram } = require('./random_programs.js');

const [command, kind, ...rest] = process.argv.slice(2);
const engines = ['duk', 'mujs'].filter((name) => process.env.PATH.split(':').some((folder) => fs.existsSync(path.join(folder, name))));
const work = fs.mkdtempSync(path.join(os.tmpdir(), 'programs-'));
process.on('exit', () => fs.rmSync(work, { recursive: true, force: true }));

// what differs first between two lists of lines, or nothing
function difference(wanted, got) {
  for (let at = 0; at < Math.max(wanted.length, got.length); at++) {
    if (wanted[at] !== got[at]) return `line ${at + 1} is ${got[at]}, not ${wanted[at]}`;
  }
  return null;
}

// What `build` or `split` answers: scripts or a fault.
function built(folder) {
  const words = [kind === 'split' ? 'split' : 'build', 'main.js'];
  const { status, stdout, stderr, error } = spawnSync(command, words, { cwd: folder, maxBuffer: 1 << 28 });
  if (error) return { fault: String(error) };
  if (status !== 0 || stderr.length > 0) return { fault: `status ${status}, ${stderr.toString().trimEnd()}` };
  if (kind !== 'split') return { scripts: [{ name: 'the script', text: stdout.toString() }] };
  const scripts = scriptsOf(stdout);
  const faults = textFaults(scripts);
  return faults.length > 0 ? { fault: faults.join('; ') } : { scripts };
}

// The faults of scripts against the lines that they have to give and the modules' own run.
async function scriptFaults(program, scripts, modules) {
  const faults = [];
  const fault = (engine, text) => { if (text) faults.push(`in ${engine} ${text}`); };
  const run = runScripts(scripts, program.answers);
  fault('node', difference(program.expected, run.lines));
  if (run.left.length > 0) fault('node', `a script looks up or changes ${run.left[0]}`);
  const mapped = await mappedPlaces(scripts, run);
  const own = ownPlaces(program.files, modules);
  if (program.why === undefined) fault('the map', difference(own.places, mapped));
  // the modules' own run is another one, so any call of the host will do
  else mapped.forEach((place, i) => { if (!own.hostCalls.get(run.lines[i].replace(/\(.*/, '')).includes(place)) fault('the map', `event ${i + 1} is at ${place}`); });
  for (const engine of engines) {
    if (kind === 'random' && program.without.includes(engine)) continue;
    const differs = difference(toldBy(engine, scripts, program.expected), runEngine(engine, work, scripts, program.answers));
    fault(engine, program.without.includes(engine) ? differs ? null : 'nothing differs, so `without` is needless' : differs);
  }
  return faults;
}

function modulesOf(folder, under = '') {
  const files = {};
  for (const entry of fs.readdirSync(path.join(folder, under), { withFileTypes: true })) {
    const name = under + entry.name;
    if (entry.isDirectory()) Object.assign(files, modulesOf(folder, name + '/'));
    else if (name.endsWith('.js')) files[name] = fs.readFileSync(path.join(folder, name), 'utf8');
  }
  return files;
}
function programOf(name) {
  const folder = path.join(__dirname, 'programs', name);
  const text = (file) => fs.existsSync(path.join(folder, file)) ? fs.readFileSync(path.join(folder, file), 'utf8') : undefined;
  return {
    name, folder, files: modulesOf(folder), answers: JSON.parse(text('answers') || '{}'), expected: (text('expected') || '').split('\n').slice(0, -1),
    why: text('why'), without: (text('without') || '').split('\n').map((line) => line.split(':')[0]),
  };
}
function randomOf(seed) {
  const { files, answers, without } = randomProgram(seed);
  for (const old of fs.readdirSync(work)) fs.rmSync(path.join(work, old));
  for (const [name, text] of Object.entries(files)) fs.writeFileSync(path.join(work, name), text);
  return { name: `random program ${seed}`, folder: work, files, answers, without };
}

// How the modules' own run and the expected lines disagree, or nothing.
function expectedFault(program, modules) {
  if (modules.refused) return `node refuses it: ${modules.refused}`;
  const differs = difference(program.expected, modules.lines);
  if (program.why !== undefined) return differs ? null : 'node agrees, so `why` is needless';
  return differs || (modules.left.length > 0 ? `it leaves the profile at ${modules.left[0]}` : null);
}

(async () => {
  const told = { failed: 0, 'by hand': 0, 'refused by node': 0, 'outside the profile': 0, 'still running': 0, alike: 0 };
  let events = 0;
  const fail = (name, text) => {
    told.failed++;
    if (told.failed <= 50) console.error(`programs: ${name}: ${text}`);
  };
  const check = async (program) => {
    const modules = await runModules(program.files, program.answers);
    if (kind === 'random') {
      if (modules.refused) { told['refused by node']++; return; }
      if (modules.left.length > 0) { told['outside the profile']++; return; }
      if (modules.lines[modules.lines.length - 1] === 'still running') { told['still running']++; return; }
      program.expected = modules.lines;
    } else {
      const fault = expectedFault(program, modules);
      if (fault) { fail(program.name, fault); return; }
      if (program.why !== undefined) told['by hand']++;
    }
    events += program.expected.length - 1;
    const { scripts, fault } = built(program.folder);
    if (fault) { fail(program.name, fault); return; }
    const faults = await scriptFaults(program, scripts, modules);
    if (faults.length > 0) fail(program.name, faults.join('; '));
    else told.alike++;
  };
  let programs;
  if (kind === 'random') {
    const [seed, count] = rest.map(Number);
    programs = count;
    for (let turn = 0; turn < count; turn++) await check(randomOf(seed + turn));
  } else {
    const all = fs.readdirSync(path.join(__dirname, 'programs')).sort().map(programOf);
    const chosen = all.filter(({ name, files }) => rest.length > 0 ? rest.includes(name) : kind === 'folders' || Object.keys(files).length > 1);
    programs = chosen.length;
    for (const program of chosen) await check(program);
  }
  const out = `${told['refused by node']} refused by node, ${told['outside the profile']} outside the profile and ${told['still running']} still running left out`;
  const shown = kind === 'random' ? `random, ${out}` : `folders${kind === 'split' ? ' split' : ''}, ${told['by hand']} expected by hand`;
  console.log(`programs: ${programs} ${shown}, ${events} events; ` +
    `${told.alike} alike in ${['node', ...engines].join(', ')}, places ${hasPackage ? 'also by the package source-map' : 'by node alone'}, ${told.failed} failed`);
  process.exitCode = told.failed === 0 ? 0 : 1;
})();

// Runs the meanings on the programs of tests/engines/programs: that of modules (level s) and that of cores. Usage: node --expose-internals run.js
// [--levels s01234] [NAME ..]
// Five programs leave the profile where an engine goes on: up to there their lines are the expected ones.
'use strict';
const fs = require('fs');
const path = require('path');
const { engines, coreOf, after, runAt, runModules } = require('./running.js');

// how many lines they show, and what they leave by: a number of undefined, a power that isn't safe, and a write of a static that a parent was given later
const leaving = {
  const_assignments: [4, 'left 1'], expressions_powers: [6, 'left 1'], modules_live_bindings: [6, 'left 1'], odd_classes_static_chains_and_super: [2, 'left 6'],
  odd_statements_without_semicolons_and_odd_layout: [11, 'left 1'],
};
const args = process.argv.slice(2);
const levels = args[0] === '--levels' ? args.splice(0, 2)[1] : 's01234';

function difference(expected, got) {
  for (let at = 0; at < Math.max(expected.length, got.length); at++) if (expected[at] !== got[at]) return `line ${at + 1} is ${got[at]}, not ${expected[at]}`;
  return null;
}
function modulesOf(folder, under = '') {
  const files = {};
  for (const entry of fs.readdirSync(path.join(folder, under), { withFileTypes: true })) {
    const name = under + entry.name;
    if (entry.isDirectory()) Object.assign(files, modulesOf(folder, name + '/'));
    else if (name.endsWith('.js')) files[name] = fs.readFileSync(path.join(folder, name), 'utf8');
  }
  return files;
}
const programs = path.join(engines, 'programs');
const names = args.length > 0 ? args : fs.readdirSync(programs).sort();
// whether two heaps have the same objects, but for the numbers of their functions
const shape = (o) => JSON.stringify({ ...o, class: o.class.t });
const sameHeap = (a, b) => a.length === b.length && a.every((o, i) => shape(o) === shape(b[i]));
const told = { alike: 0, heaps: 0, failed: 0, events: 0, steps: 0 };
for (const name of names) {
  const folder = path.join(programs, name);
  const text = (file, other) => fs.existsSync(path.join(folder, file)) ? fs.readFileSync(path.join(folder, file), 'utf8') : other;
  const expected = text('expected', '').split('\n').slice(0, -1), answers = JSON.parse(text('answers', '{}'));
  const faults = [];
  const files = modulesOf(folder);
  let core, places, heap;
  try { if (levels !== 's') core = coreOf(files); } catch (error) { faults.push(`isn't lowered: ${error.message}`); }
  for (const level of levels) {
    try {
      if (level !== 's') core = after(level, core);
      const run = level === 's' ? runModules(files, answers) : runAt(level, core, answers);
      told.steps += run.steps;
      const [until, exit] = leaving[name] || [];
      // a script goes on where its modules left at 6, and nothing is claimed of it from there on
      const shown = level === '4' && exit === 'left 6' ? until : Infinity;
      const lines = (exit ? [...expected.slice(0, until), exit] : expected).slice(0, shown);
      const fault = difference(lines, run.lines.slice(0, shown));
      if (fault) faults.push(`level ${level}: ${fault}`);
      // a configuration has its state beside the control
      if (level === 's') heap = run.state.state.heap;
      if (level === '0' && heap && sameHeap(heap, run.state.state.heap)) told.heaps++;
      places = places || run.places;
      const misplaced = difference(places, run.places.slice(0, shown));
      if (misplaced) faults.push(`level ${level}: places: ${misplaced}`);
    } catch (error) { faults.push(`level ${level}: ${error.message}${process.env.WHERE ? error.stack : ''}`); }
  }
  told.events += expected.length - 1;
  if (faults.length > 0) { told.failed++; console.log(`${name}: ${faults.join('; ')}`); } else told.alike++;
}
console.log(`meaning: ${names.length} programs, ${told.events} events, levels ${levels}: ${told.alike} alike, ${told.failed} failed, ${told.heaps} heaps of modules and cores the same, ${told.steps} steps`);
process.exitCode = told.failed === 0 ? 0 : 1;

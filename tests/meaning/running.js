// Runs programs by the definitions of their meaning, at each level: the modules themselves, their core as they are lowered, and after each pass
// that is asked for.
'use strict';
const fs = require('fs');
const path = require('path');
const { load } = require('./definitions.js');
const { lowered } = require('./model.js');
const { graphOf } = require('./modules.js');
const { helpers } = require('./scripts.js');

const engines = path.join(__dirname, '..', 'engines');
const { programHosts } = eval(`(function () { ${fs.readFileSync(path.join(engines, 'first_hosts.js'), 'utf8')}\n${fs.readFileSync(path.join(engines, 'programs_hosts.js'), 'utf8')}\nreturn { programHosts: programHosts }; })()`);
const hostNames = ['print', 'read', 'count'];
const mostSteps = Number(process.env.MOST_STEPS || 3000000);

const passes = { 1: 'pass_rules/Scopes/without_scopes', 2: 'pass_rules/yield_rules/Yields/with_yields_flat', 3: 'pass_rules/state_rules/States/with_machines' };
const definitions = load(['source_meaning/Step/step', 'source_meaning/Modules/start', 'core_meaning/Modules/core_step', 'core_meaning/Modules/start', 'emission_rules/Functions/emitted',
  'script_lowering/Scripts/core_of', 'script_core/Meaning/script_step', 'script_core/Meaning/script_start', ...Object.values(passes)]);
const named = (crate, name) => definitions[`${crate}/${name}`];

// values between programs and hosts
const textOf = (units) => units.map((u) => String.fromCharCode(u)).join('');
function primOf(p) {
  switch (p.t) {
    case 'Undefined': return undefined;
    case 'Null': return null;
    case 'Text': return textOf(p.a[0]);
    default: return p.a[0];
  }
}
function ofPrim(v) {
  if (v === undefined) return { t: 'Undefined', a: [] };
  if (v === null) return { t: 'Null', a: [] };
  if (typeof v === 'boolean') return { t: 'Bool', a: [v] };
  if (typeof v === 'number') return { t: 'Number', a: [v] };
  return { t: 'Text', a: [Array.from({ length: v.length }, (_, i) => v.charCodeAt(i))] };
}

// the lines of a run of a machine, how many steps it took, and the places of its events and of its exit
function runMachine(step, start, answers) {
  const lines = [], places = [];
  const kinds = { Error, TypeError, ReferenceError, RangeError };
  const program = programHosts((line) => lines.push(line), JSON.parse(JSON.stringify(answers)), hostNames, kinds);
  let state = start, steps = 0;
  for (;;) {
    if (steps++ > mostSteps) return { lines: [...lines, 'still running'], steps, places };
    const next = step(state);
    if (next.t === 'Goes') state = next.a[0];
    else if (next.t === 'Asks') {
      const event = next.a[0];
      places.push(`${event.site.module}:${event.site.at}`);
      let reply;
      try { reply = { t: 'Give', a: [ofPrim(program.hosts[hostNames[event.host]](...event.args.map(primOf)))] }; }
      catch (thrown) { if (typeof thrown === 'object' && thrown !== null) throw thrown; reply = { t: 'Throw', a: [ofPrim(thrown)] }; }
      state = next.a[1](reply);
    } else if (next.t === 'Ends') {
      const finish = next.a[0];
      if (finish.t === 'Ended') lines.push('ended');
      else if (finish.a[0].t === 'Prim') lines.push(program.ending(primOf(finish.a[0].a[0])));
      else lines.push(`threw ${finish.a[0].t}`);
      return { lines, steps, places, state };
    } else return { lines: [...lines, `left ${next.a[0].number}`], steps, places, state, left: next.a[0].site };
  }
}
// modules by their own meaning
const runModules = (files, answers) => runMachine(named('source_meaning', 'Step/step'), named('source_meaning', 'Modules/start')(graphOf(files, hostNames)), answers);
const hostTexts = hostNames.map((name) => [...name].map((c) => c.charCodeAt(0)));
function runCore(core, answers) {
  const step = named('core_meaning', 'Modules/core_step');
  return runMachine((state) => step(core, state), named('core_meaning', 'Modules/start')(core), answers);
}
// a script, given as its tree, with the places that its calls carry or those of their spans
function runScript(script, sites, answers) {
  const core = named('script_lowering', 'Scripts/core_of')({ t: sites, a: [] }, script);
  const step = named('script_core', 'Meaning/script_step');
  return runMachine((state) => step(core, state), named('script_core', 'Meaning/script_start')(hostTexts, core), answers);
}
// the script of a core behind all passes
const emitted = (core) => named('emission_rules', 'Functions/emitted')(core, hostTexts, helpers());

// the core of these files, and what a pass makes of one
const coreOf = (files) => lowered(files, hostNames);
const after = (level, core) => passes[level] ? definitions[passes[level]](core) : core;
// the run at a level; the last is that of the script
const runAt = (level, core, answers) => level === '4' ? runScript(emitted(core), 'Carried', answers) : runCore(core, answers);

// the run of files, and that of one module, at the last of these levels
const runSource = (source, levels) => runFiles({ 'main.js': source }, levels, {});
function runFiles(files, levels, answers) {
  if (levels === 's') return runModules(files, answers);
  let core = coreOf(files);
  for (const level of levels) core = after(level, core);
  return runAt(levels.at(-1), core, answers);
}
module.exports = { engines, coreOf, after, runAt, runFiles, runModules, runSource };

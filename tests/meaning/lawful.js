// Whether the cores of the programs of tests/engines/programs are lawful at each level, as their model lowers them and behind each pass, and whether their
// scripts may be printed; whether they are writable at each level, their labels differ and have room until yields are flattened, few nodes become states
// and names have room, as the laws of emission_laws, lawful_passes and writable_passes ask; and the same of random cores that are lawful, but for
// operations on cells, which there are from the first pass on. Of the programs also whether their scopes may be flattened, as cells_keep_runs asks.
// Usage: node --expose-internals lawful.js [SEED COUNT]
'use strict';
const fs = require('fs');
const path = require('path');
const { engines, coreOf } = require('./running.js');
const { load } = require('./definitions.js');
const { helpers } = require('./scripts.js');
const { randomCore } = require('./random_cores.js');

const passes = ['pass_rules/Scopes/without_scopes', 'pass_rules/yield_rules/Yields/with_yields_flat', 'pass_rules/state_rules/States/with_machines'];
const tests = ['functions_lawful', 'part_lawful', 'declarations', 'held', 'all_differ'].map((name) => `core_ast/Lawful/${name}`);
const asked = ['emission_laws/Writable/function_fits', 'emission_laws/Writable/part_fits', 'lawful_passes/Told/function_told', 'lawful_passes/Told/part_told', 'lawful_passes/Told/tells_apart', 'lawful_passes/StatesBefore/will_have_few_states', 'writable_passes/Rooms/function_behind', 'writable_passes/Rooms/part_behind', 'writable_passes/Rooms/turn_fits', 'writable_passes/Rooms/fits', 'writable_passes/Drawn/draws'];
const flattening = ['MayBeFlattened/names_may_be_flattened', 'Fitting/functions_fit', 'Fitting/parts_fit', 'Started/owners_of'].map((name) => `cells_keep_runs/${name}`);
const definitions = load([...passes, ...tests, ...asked, ...flattening, 'emission_rules/Functions/emitted', 'es5_printable/Printable/is_printable']);
const [functionsLawful, partLawful, declarations, held, allDiffer] = tests.map((name) => definitions[name]);
const [functionFits, partFits, functionTold, partTold, tellsApart, willHaveFewStates, functionBehind, partBehind, turnFits, fits, draws] = asked.map((name) => definitions[name]);
const [namesMayBeFlattened, functionsFit, partsFit, ownersOf] = flattening.map((name) => definitions[name]);
const hosts = ['print', 'read', 'count'].map((name) => [...name].map((c) => c.charCodeAt(0)));

function faultOf(core) {
  const names = core.fresh.hints.length, functions = core.functions.length;
  if (!functionsLawful(names, hosts.length, 0, core.functions)) return 'a function';
  if (!core.parts.every((part) => partLawful(names, hosts.length, functions, part))) return 'a part';
  if (!core.order.every((n) => n < core.parts.length)) return 'the order';
  if (!allDiffer(declarations(core))) return 'a name that is declared twice';
  return allDiffer(held(core)) ? null : 'a function that is held twice';
}
const isWritable = (core) => core.functions.every((f) => functionFits(f)) && core.parts.every((part) => partFits(part));
const labelsHaveRoom = (core) => core.functions.every((f) => fits(functionBehind(f))) && core.parts.every((part) => fits(partBehind(part)));
const namesHaveRoom = (core) => fits(core.fresh.hints.length + draws(core) + hosts.length);
const labelsDiffer = (core) => core.functions.every((f) => tellsApart(functionTold(f))) && core.parts.every((part) => tellsApart(partTold(part)));
function faultsOf(core) {
  const faults = [];
  for (let level = 0; level <= passes.length; level++) {
    if (level > 0) core = definitions[passes[level - 1]](core);
    const fault = faultOf(core);
    if (fault) faults.push(`level ${level} isn't lawful: ${fault}`);
    if (!isWritable(core)) faults.push(`level ${level} isn't writable`);
    if (level < 2 && !labelsDiffer(core)) faults.push(`level ${level} has a label twice`);
    if (level < 2 && !labelsHaveRoom(core)) faults.push(`level ${level} has too great a label`);
    if (level === 2 && !core.functions.every((f) => turnFits(f))) faults.push("level 2 has too great a label");
    if (level === 0 && !core.functions.every((f) => willHaveFewStates(f))) faults.push('a generator will have too many states');
    if (level === 0 && !namesHaveRoom(core)) faults.push('there is no room for its names');
  }
  if (!definitions['es5_printable/Printable/is_printable'](definitions['emission_rules/Functions/emitted'](core, hosts, helpers()))) faults.push("its script can't be printed");
  return faults;
}
// the names that aren't assigned: those that can't be written
function fixedOf(core) {
  const names = new Set(core.functions.filter((f) => f.own.t === 'Some').map((f) => Number(f.own.a[0][0])));
  const walk = (value) => {
    if (value === null || typeof value !== 'object') return;
    if ('shared' in value && value.mutable === false) names.add(Number(value.var[0]));
    Object.values(value).forEach(walk);
  };
  walk(core.functions);
  walk(core.parts);
  return names;
}
function mayBeFlattened(core) {
  const fixed = fixedOf(core);
  const naming = { owners: ownersOf(core), fixed: (x) => fixed.has(Number(x[0])) };
  return namesMayBeFlattened(core) && functionsFit(core, naming, core.functions) && partsFit(core, naming, core.parts);
}
function modulesOf(folder, under = '') {
  const files = {};
  for (const entry of fs.readdirSync(path.join(folder, under), { withFileTypes: true })) {
    const name = under + entry.name;
    if (entry.isDirectory()) Object.assign(files, modulesOf(folder, name + '/'));
    else if (name.endsWith('.js')) files[name] = fs.readFileSync(path.join(folder, name), 'utf8');
  }
  return files;
}
const programs = path.join(engines, 'programs');
const [seed, count] = process.argv.length > 3 ? process.argv.slice(2, 4).map(Number) : [1, 100];
let failed = 0;
const tell = (name, faults) => { if (faults.length > 0) { failed++; console.log(`${name}: ${faults.join('; ')}`); } };
const names = fs.readdirSync(programs).sort();
for (const name of names) {
  const core = coreOf(modulesOf(path.join(programs, name)));
  tell(name, [...faultsOf(core), ...(mayBeFlattened(core) ? [] : ["its scopes mayn't be flattened"])]);
}
for (let at = seed; at < seed + count; at++) tell(`random core ${at}`, faultsOf(randomCore(at)));
console.log(`lawful: ${names.length} programs, ${count} random cores, levels 0 to 3 and their scripts: ${failed} failed`);
process.exitCode = failed === 0 ? 0 : 1;

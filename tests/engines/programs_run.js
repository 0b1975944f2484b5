// Runs a program's modules in node's own modules, and its scripts in node, in a realm cut down to the library of the 5.1 edition, and in small
// engines. A script has a name and a text. A run gives lines, an event or the ending each, and what it did outside the profile; in node each event has
// the place of its call.
'use strict';
const { spawnSync } = require('child_process');
const fs = require('fs');
const { SourceMap } = require('module');
const path = require('path');
const vm = require('vm');
const acorn = require('internal/deps/acorn/acorn/dist/acorn');

const own = (name) => fs.readFileSync(path.join(__dirname, name), 'utf8');
const hostsText = own('first_hosts.js') + own('programs_hosts.js');
const programHosts = vm.runInThisContext(`(function () { ${hostsText} return programHosts; })()`);
const hostNames = ['print', 'read', 'count'];
const mostLines = 2000;
const limit = { timeout: 20000 };

// The places of all calls of a text as stack traces tell them, at the name before the parenthesis or else at the parenthesis, with the
// place of each call's first token. Lines count from 1 and columns from 0, as acorn has them.
function callsOf(text, sourceType) {
  const tokens = [];
  const calls = new Map();
  const place = ({ line, column }) => `${line}:${column}`;
  const tree = acorn.parse(text, { ecmaVersion: 7, sourceType, locations: true, preserveParens: true, onToken: tokens });
  const firstBehind = (end) => {
    let [low, high] = [0, tokens.length];
    while (low < high) {
      const middle = (low + high) >> 1;
      if (tokens[middle].start < end) low = middle + 1;
      else high = middle;
    }
    return low;
  };
  const look = (node) => {
    if (node === null || typeof node !== 'object' || node instanceof RegExp) return;
    if (node.type === 'CallExpression') {
      const open = firstBehind(node.callee.end);
      const isName = tokens[open - 1].type.label === 'name' || tokens[open - 1].type.keyword;
      calls.set(place(tokens[isName ? open - 1 : open].loc.start), { start: place(node.loc.start), callee: node.callee.name });
    }
    for (const key of Object.keys(node)) if (key !== 'loc') look(node[key]);
  };
  look(tree);
  return { calls, tree };
}

// the innermost call of the program that is under way, by the engine's stack
function callUnderWay(names) {
  const outer = Error.prepareStackTrace;
  Error.prepareStackTrace = (error, sites) => sites;
  const site = new Error().stack.find((frame) => names.includes(frame.getFileName()));
  Error.prepareStackTrace = outer;
  return site ? [site.getFileName(), `${site.getLineNumber()}:${site.getColumnNumber() - 1}`] : ['nowhere', ''];
}

// A run of a program in a realm of node: its hosts, its lines and places, and what it did outside the profile.
function runIn(context, answers, names) {
  const kinds = vm.runInContext('({ Error, TypeError, ReferenceError, RangeError })', context);
  const run = { lines: [], places: [], left: [] };
  const say = (line) => {
    if (run.lines.push(line) > mostLines) throw new Error('too many lines');
    run.places.push(callUnderWay(names));
  };
  Object.assign(run, programHosts(say, JSON.parse(JSON.stringify(answers)), hostNames, kinds));
  return run;
}
function end(run, thrown) {
  const isLate = thrown.length > 0 && thrown[0] && thrown[0].code === 'ERR_SCRIPT_EXECUTION_TIMEOUT';
  run.lines.push(isLate ? 'still running' : thrown.length > 0 ? run.ending(thrown[0]) : 'ended');
}

// What of the profile's exits can be noted in the modules' own run: texts of functions, and texts of objects that the two editions tell apart.
function noteExits(context, run) {
  const changed = vm.runInContext(`(function (note) {
    'use strict';
    const tag = Symbol.toStringTag, { toString } = Object.prototype;
    Function.prototype.toString = function () { note('X8'); return 'function'; };
    Object.prototype.toString = function () {
      if (this !== undefined && this !== null && this[tag] !== undefined) note('X9');
      return toString.call(this);
    };
  })`, context);
  changed((name) => run.left.push(name));
}
// The lines also show numbers that the profile doesn't have.
const isBeyond = (line) => /NaN|Infinity|\d\.\d|\de\+/.test(line) || (line.match(/\d{16,}/g) || []).some((digits) => Number(digits) > Number.MAX_SAFE_INTEGER);

async function runModules(files, answers) {
  const context = vm.createContext({});
  const run = runIn(context, answers, Object.keys(files));
  noteExits(context, run);
  const host = new vm.SyntheticModule(hostNames, function () {
    for (const name of hostNames) this.setExport(name, run.hosts[name]);
  }, { context });
  const modules = new Map();
  const moduleOf = (name) => {
    if (!modules.has(name)) modules.set(name, new vm.SourceTextModule(files[name], { context, identifier: name }));
    return modules.get(name);
  };
  const named = (specifier, from) => specifier === 'host' ? host : moduleOf(path.posix.join(path.posix.dirname(from.identifier), specifier));
  try {
    const main = moduleOf('main.js');
    await main.link(named);
    const thrown = [];
    try { await main.evaluate(limit); } catch (error) { thrown.push(error); }
    end(run, thrown);
  } catch (error) {
    run.refused = String(error);
  }
  if (run.lines.some(isBeyond)) run.left.push('X1');
  return run;
}

// The scripts run in their order in one realm; where one throws, the rest isn't run.
function runScripts(scripts, answers) {
  const context = vm.createContext({});
  const run = runIn(context, answers, scripts.map(({ name }) => name));
  const cutRealm = vm.runInContext(`(function () { ${own('programs_realm.js')} return cutRealm; })()`, context);
  const global = vm.runInContext('this', context);
  const check = cutRealm(global, (name) => run.left.push(name));
  Object.assign(context, run.hosts);
  const thrown = [];
  try {
    for (const { name, text } of scripts) vm.runInContext(text, context, { filename: name, ...limit });
  } catch (error) { thrown.push(error); }
  end(run, thrown);
  check();
  return run;
}

const library = (() => {
  try { return require('source-map'); } catch (error) { return null; }
})();

// The targets of a map's segments by their places, as the package source-map reads them; nothing where it isn't there.
async function packageTargets(map) {
  if (!library) return null;
  const targets = new Map();
  const consumer = await new library.SourceMapConsumer(map);
  consumer.eachMapping(({ generatedLine, generatedColumn, source, originalLine, originalColumn }) => {
    targets.set(`${generatedLine}:${generatedColumn}`, `${source}:${originalLine}:${originalColumn}`);
  });
  if (consumer.destroy) consumer.destroy();
  return targets;
}

// What takes the place of a call of a script to its place in the modules, by the script's inline map, node's own reader of maps and the package
// source-map.
async function placesBy(text) {
  const line = text.trimEnd().split('\n').pop();
  const front = '//# sourceMappingURL=data:application/json;base64,';
  if (!line.startsWith(front)) return () => 'no map';
  const read = JSON.parse(Buffer.from(line.slice(front.length), 'base64').toString('utf8'));
  const map = new SourceMap(read);
  const targets = await packageTargets(read);
  const { calls } = callsOf(text, 'script');
  return (place) => {
    if (!calls.has(place)) return `no call at ${place} of the script`;
    const start = calls.get(place).start;
    const [line, column] = start.split(':').map(Number);
    const entry = map.findEntry(line - 1, column);
    if (entry.generatedLine !== line - 1 || entry.generatedColumn !== column) return `no segment at ${start} of the script`;
    const target = `${entry.originalSource}:${entry.originalLine + 1}:${entry.originalColumn}`;
    if (targets && targets.get(start) !== target) return `${target} by node and ${targets.get(start)} by the package source-map`;
    return target;
  };
}

// The places of the scripts' events in the modules, each by the map of the script in which it is.
async function mappedPlaces(scripts, run) {
  const places = new Map();
  for (const { name, text } of scripts) places.set(name, await placesBy(text));
  return run.places.map(([name, place]) => places.has(name) ? places.get(name)(place) : name);
}

// The places of the modules' own events, and those of all calls of a host by the host's name.
function ownPlaces(files, run) {
  const read = Object.fromEntries(Object.entries(files).map(([name, text]) => [name, callsOf(text, 'module')]));
  const places = run.places.map(([name, place]) => `${name}:${read[name] && read[name].calls.has(place) ? read[name].calls.get(place).start : 'no call'}`);
  const hostCalls = new Map(hostNames.map((name) => [name, []]));
  for (const [name, { calls, tree }] of Object.entries(read)) {
    const locals = new Map();
    for (const item of tree.body) {
      if (item.type !== 'ImportDeclaration' || item.source.value !== 'host') continue;
      for (const part of item.specifiers) locals.set(part.local.name, part.imported.name);
    }
    for (const { start, callee } of calls.values()) if (locals.has(callee)) hostCalls.get(locals.get(callee)).push(`${name}:${start}`);
  }
  return { places, hostCalls };
}

// The lines of scripts in an engine whose one way to write a line is `print`. mujs loads each by its path. duktape is handed one by its text, and
// several as files, since what they have at their top level must be global: then it tells what ends them itself, and the last line is `threw` alone.
function runEngine(engine, folder, scripts, answers) {
  const file = (name, text) => {
    fs.writeFileSync(path.join(folder, name), text);
    return path.join(folder, name);
  };
  const paths = scripts.map(({ text }, at) => file(`script${at}.js`, text));
  const asFiles = engine !== 'mujs' && scripts.length > 1;
  const run = engine === 'mujs' ? paths.map((path) => `load(${JSON.stringify(path)});`).join(' ') : `(0, eval)(${JSON.stringify(scripts[0].text)});`;
  const hosts = `var say = print;
${hostsText}
var kinds = { Error: Error, TypeError: TypeError, ReferenceError: ReferenceError, RangeError: RangeError };
var program = programHosts(say, ${JSON.stringify(answers)}, ${JSON.stringify(hostNames)}, kinds), name, ending = 'ended';
for (name in program.hosts) this[name] = program.hosts[name];
`;
  const caught = `try { ${run} }
catch (error) { ending = program.ending(error); }
say(ending);
`;
  const words = asFiles ? [file('hosts.js', hosts), ...paths, file('end.js', 'say(ending);\n')] : [file(`${engine}.js`, hosts + caught)];
  const { status, stdout, stderr, signal } = spawnSync(engine, words, { encoding: 'utf8', timeout: 60000 });
  const lines = stdout.split('\n').slice(0, -1);
  if (signal) lines.push('still running');
  else if (asFiles) return status === 0 ? lines : [...lines, 'threw'];
  return stderr ? [...lines, ...stderr.trimEnd().split('\n')] : lines;
}

// What an engine can tell of a run with these lines, if it is handed so many scripts.
function toldBy(engine, scripts, lines) {
  return engine === 'mujs' || scripts.length === 1 ? lines : lines.map((line, at) => at === lines.length - 1 ? line.replace(/^threw .*/, 'threw') : line);
}

module.exports = { runModules, runScripts, runEngine, toldBy, mappedPlaces, ownPlaces, hasPackage: library !== null };

// What `split` writes: its scripts, and what is wrong with them as texts.
'use strict';
const acorn = require('internal/deps/acorn/acorn/dist/acorn');

// The scripts of an output: before each stands a line with its name and the number of its bytes.
function scriptsOf(output) {
  const scripts = [];
  for (let at = 0; at < output.length;) {
    const end = output.indexOf(10, at);
    const [, name, length] = /^(\S+) (0|[1-9]\d*)$/.exec(output.subarray(at, end).toString());
    at = end + 1 + Number(length);
    if (at > output.length) throw new Error(`${name} is cut off`);
    scripts.push({ name, text: output.subarray(end + 1, at).toString() });
  }
  return scripts;
}

function mapOf(text) {
  const line = text.trimEnd().split('\n').pop();
  return JSON.parse(Buffer.from(line.slice(line.indexOf('base64,') + 7), 'base64').toString('utf8'));
}

// What is wrong with the scripts of a graph's modules, of which main.js is the entry: their names, the sources of their maps, and the names at
// their top level, of which they share one.
function textFaults(scripts) {
  const names = ['loader.js', ...scripts.slice(2).map((script, number) => `${number}.js`), 'start.js'];
  if (scripts.map(({ name }) => name).join() !== names.join()) return [`the scripts are ${scripts.map(({ name }) => name)}`];
  const faults = [];
  const tables = new Set();
  const modules = [];
  for (const { name, text } of scripts) {
    const { sources, mappings } = mapOf(text);
    if (/^\d/.test(name)) modules.push(...sources);
    else if (sources.length > 0 || mappings !== '') faults.push(`${name} has the sources ${sources} and the segments ${mappings}`);
    const { body } = acorn.parse(text, { ecmaVersion: 5, sourceType: 'script' });
    if (body[0].directive !== 'use strict') faults.push(`${name} has no directive`);
    for (const { type, declarations } of body) if (type === 'VariableDeclaration') for (const { id } of declarations) tables.add(id.name);
  }
  if (new Set(modules).size !== scripts.length - 2 || modules[0] !== 'main.js') faults.push(`the sources are ${modules}`);
  if (tables.size !== 1 || !/^es5c\$+$/.test([...tables][0])) faults.push(`the names at the top level are ${[...tables]}`);
  return faults;
}

module.exports = { scriptsOf, textFaults };

// Random graphs of modules that import, export and pass on a few names, through indirect exports and stars, rings included. What the program
// says of each is compared with the rule of docs/PROFILE.md, worked out here by following all paths, to the byte; and whether the graph
// links, with node's own linker, whose rule is the same but where one name comes through several stars by different ways; no graph of
// these seeds is so.
'use strict';
const { spawnSync } = require('child_process');
const fs = require('fs');
const os = require('os');
const path = require('path');
const vm = require('vm');

const [program, seed, count] = [process.argv[2], +process.argv[3], +process.argv[4]];
let state = seed;
const random = (n) => {
  state = (Math.imul(state, 1103515245) + 12345) >>> 0;
  return (state >>> 8) % n;
};
const pick = (list) => list[random(list.length)];
const NAMES = ['a', 'a', 'b', 'b', 'default'];
const KINDS = ['local', 'local', 'local', 'indirect', 'star', 'star', 'star', 'import', 'import', 'passed'];

// A module: items in text order. Each exported name and each bound name stands once, as the early errors ask.
function made(modules) {
  const items = [];
  const exported = new Set();
  const bound = new Set();
  const fresh = (set, name) => !set.has(name) && set.add(name);
  for (let left = 2 + random(5); left > 0; left--) {
    const from = `./m${random(modules)}.js`;
    const [name, other] = [pick(NAMES), pick(NAMES)];
    const local = `v${random(3)}`;
    switch (pick(KINDS)) {
      case 'local': if (name !== 'default' && fresh(exported, name) && fresh(bound, name)) items.push({ kind: 'local', exported: name, bound: name }); break;
      case 'indirect': if (fresh(exported, name)) items.push({ kind: 'indirect', exported: name, name: other, from }); break;
      case 'star': items.push({ kind: 'star', from }); break;
      case 'import': if (fresh(bound, local)) items.push({ kind: 'import', name, local, from }); break;
      default: if (bound.has(local) && fresh(exported, name)) items.push({ kind: 'passed', exported: name, local });
    }
  }
  return items;
}

// The text of an item, and where in it the name stands that another module is to export.
function written(item) {
  switch (item.kind) {
    case 'local': return [`export let ${item.exported} = 1;`];
    case 'indirect': return [`export {${item.name} as ${item.exported}} from "${item.from}";`, 'export {'.length];
    case 'star': return [`export * from "${item.from}";`];
    case 'passed': return [`export {${item.local} as ${item.exported}};`];
    default: return [`import {${item.name} as ${item.local}} from "${item.from}";`, 'import {'.length];
  }
}

// The ends of a name of a module, as texts: by its own exports, of which an import that is passed on goes on, else by its stars. A pair of
// module and name that comes back adds none.
function endsOf(graph, module, name, seen = new Set()) {
  const pair = `${module} ${name}`;
  if (seen.has(pair)) return new Set();
  seen.add(pair);
  const items = graph.get(module);
  const own = items.find((item) => item.exported === name);
  if (own && own.kind === 'local') return new Set([pair]);
  if (own && own.kind === 'indirect') return endsOf(graph, own.from, own.name, seen);
  if (own) {
    const source = items.find((item) => item.kind === 'import' && item.local === own.local);
    return source ? endsOf(graph, source.from, source.name, seen) : new Set([`${module} ${own.local}`]);
  }
  const ends = new Set();
  if (name !== 'default') for (const item of items) if (item.kind === 'star') for (const end of endsOf(graph, item.from, name, seen)) ends.add(end);
  return ends;
}

// The modules in load order: depth first by requests.
function loaded(graph, module = './m0.js', order = []) {
  if (order.includes(module)) return order;
  order.push(module);
  for (const item of graph.get(module)) if (item.from) loaded(graph, item.from, order);
  return order;
}

// The line that is due, by the rule: modules in load order, names by place; none where the graph links.
function due(graph) {
  for (const module of loaded(graph)) {
    for (const [line, item] of graph.get(module).entries()) {
      if (item.name === undefined) continue;
      const ends = endsOf(graph, item.from, item.name).size;
      const said = ends === 0 ? 'unresolved' : 'ambiguous';
      if (ends !== 1) return `${module.slice(2)}:${line + 1}:${written(item)[1] + 1}: ${said} name "${item.name}"`;
    }
  }
  return '';
}

// Whether node links the graph, by its own reading of the texts. At a cycle of one name its engine gives up, also where a star leads out of it, which
// the edition follows (15.2.1.16.3).
async function nodeLinks(texts) {
  const context = vm.createContext({});
  const modules = new Map();
  const moduleOf = (name) => {
    if (!modules.has(name)) modules.set(name, new vm.SourceTextModule(texts[name.slice(2)], { identifier: name, context }));
    return modules.get(name);
  };
  try {
    await moduleOf('./m0.js').link((specifier) => moduleOf(specifier));
    return true;
  } catch (error) {
    if (/Detected cycle/.test(error.message)) return undefined;
    if (!/does not provide an export|ambiguous|conflicting star exports/.test(error.message)) throw error;
    return false;
  }
}

(async () => {
  const work = fs.mkdtempSync(path.join(os.tmpdir(), 'graphs-'));
  const told = { links: 0, unresolved: 0, ambiguous: 0 };
  let [wrong, cycles] = [0, 0];
  for (let turn = 0; turn < count; turn++) {
    const modules = 1 + random(5);
    const graph = new Map();
    for (let number = 0; number < modules; number++) {
      let items = made(modules);
      if (number === 0 && items.length === 0) items = [{ kind: 'local', exported: 'a', bound: 'a' }];
      graph.set(`./m${number}.js`, items);
    }
    const texts = {};
    for (const [name, items] of graph) texts[name.slice(2)] = items.map((item) => written(item)[0] + '\n').join('');
    for (const [name, text] of Object.entries(texts)) fs.writeFileSync(path.join(work, name), text);
    const run = spawnSync(program, ['build', 'm0.js'], { cwd: work });
    const wanted = due(graph);
    const kind = wanted.includes('unresolved') ? 'unresolved' : wanted.includes('ambiguous') ? 'ambiguous' : 'links';
    told[kind]++;
    const rightly = kind === 'links'
      ? run.status === 0 && run.stdout.toString().startsWith('"use strict";\n') && run.stderr.length === 0
      : run.status === 1 && run.stdout.length === 0 && run.stderr.toString() === wanted + '\n';
    if (!rightly) {
      wrong++;
      console.log(`graphs: ${turn}: wanted ${wanted}, got ${run.status} ${run.stderr}${JSON.stringify(texts)}`);
    }
    const links = await nodeLinks(texts);
    if (links === undefined) cycles++;
    else if ((kind === 'links') !== links) {
      wrong++;
      console.log(`graphs: ${turn}: node says otherwise than ${wanted} ${JSON.stringify(texts)}`);
    }
  }
  fs.rmSync(work, { recursive: true });
  console.log(`graphs: ${count} compared: ${told.links} link, ${told.unresolved} have an unresolved name, ${told.ambiguous} an ambiguous one; node gave up at ${cycles} cycles; ${wrong} wrong`);
  process.exitCode = wrong ? 1 : 0;
})();

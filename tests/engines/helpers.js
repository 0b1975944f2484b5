// Holds the helpers of scripts to what they stand for: each case is a piece of a module, which node runs as it stands, and what a script says
// in its place, with those helpers alone that it is given for the ones that it calls. Usage: node --expose-internals helpers.js [ENGINE..]
'use strict';
const acorn = require('internal/deps/acorn/acorn/dist/acorn');
const fs = require('fs');
const os = require('os');
const path = require('path');
const vm = require('vm');
const { spawnSync } = require('child_process');
const { cases } = require('./helpers_cases.js');

const crate = path.join(__dirname, '../../crates/helpers/src');
const fail = (message) => { console.log('helpers: ' + message); process.exit(1); };

// ---- the text, its definitions, and the tables of what each of them uses

const text = fs.readFileSync(path.join(crate, 'text.rt'), 'utf8').match(/ = b"([^"\\]*)";/)[1];
const tables = fs.readFileSync(path.join(crate, 'table.rt'), 'utf8');
const rows = [...tables.matchAll(/&\[((?:\s*b"\w+",?)+)\s*\]/g)].map((row) => [...row[1].matchAll(/b"(\w+)"/g)].map((word) => word[1]));

const program = acorn.parse(text, { ecmaVersion: 5 });
const definitions = program.body.slice(1).map((node) => {
  const name = node.type === 'FunctionDeclaration' ? node.id.name : node.declarations.map((one) => one.id.name).join();
  return { name, node, text: text.slice(node.start, node.end) };
});
const defined = new Set(definitions.map((one) => one.name));

// the names that a node mentions and doesn't bind
function free(node, bound, out) {
  if (Array.isArray(node)) { for (const one of node) free(one, bound, out); return; }
  if (node === null || typeof node !== 'object' || typeof node.type !== 'string') return;
  if (node.type === 'Identifier') { if (!bound.has(node.name)) out.add(node.name); return; }
  if (node.type === 'MemberExpression' && !node.computed) { free(node.object, bound, out); return; }
  if (node.type === 'Property') { free(node.value, bound, out); return; }
  if (node.type === 'CatchClause') { free(node.body, new Set([...bound, node.param.name]), out); return; }
  if (/^Function/.test(node.type)) {
    const inner = new Set([...bound, 'arguments', ...node.params.map((one) => one.name)]);
    (function declare(part) {
      if (Array.isArray(part)) { part.forEach(declare); return; }
      if (part === null || typeof part !== 'object' || /^Function/.test(part.type || '')) return;
      if (part.type === 'VariableDeclarator') inner.add(part.id.name);
      Object.values(part).forEach(declare);
    })(node.body);
    free(node.body, inner, out);
    return;
  }
  for (const key of Object.keys(node)) free(node[key], bound, out);
}

const outer = new Set(['empty', 'call', 'apply', 'Object', 'Array', 'String', 'TypeError', 'ReferenceError']);
function check_tables() {
  if (program.body[0].directive !== 'use strict') fail('the text begins with no directive');
  if (rows.length !== definitions.length) fail(rows.length + ' rows of ' + definitions.length + ' definitions');
  const before = new Set();
  definitions.forEach((one, at) => {
    const mentions = new Set();
    free(one.node.type === 'FunctionDeclaration' ? one.node : one.node.declarations[0].init, new Set(), mentions);
    mentions.delete(one.name);
    const uses = [...mentions].filter((name) => defined.has(name)).sort();
    const row = rows[rows.length - 1 - at];
    if (row[0] !== one.name) fail('the row of ' + one.name + ' is that of ' + row[0]);
    if (row.slice(1).sort().join() !== uses.join()) fail(one.name + ' uses ' + uses + ', by its row ' + row.slice(1));
    for (const name of uses) if (!before.has(name)) fail(one.name + ' stands before ' + name);
    for (const name of mentions) if (!defined.has(name) && !outer.has(name)) fail(one.name + ' uses ' + name + ', which is nothing');
    before.add(one.name);
  });
  return definitions.length;
}

// what a script is given that calls these
function wanted(called) {
  const names = new Set(called);
  for (const row of rows) if (names.has(row[0])) row.slice(1).forEach((name) => names.add(name));
  return definitions.filter((one) => names.has(one.name)).map((one) => one.text).join('\n');
}

// ---- the cases

const limits = { timeout: 60000 };

function native(source) {
  const lines = [];
  const print = (...words) => lines.push(words.map(String).join(' '));
  try { vm.runInNewContext('"use strict"; {' + source + '}', { print }, limits); } catch (error) { lines.push('threw ' + error); }
  return lines;
}

// a script of its own: one function, which is handed its host
function script(source) {
  const called = [...defined].filter((name) => new RegExp('\\b' + name + '\\b').test(source));
  return { called, text: '(function (print) {\nvar empty = {}, call = Object.create.call, apply = Object.create.apply;\n' + wanted(called) + '\n' + source + '\n})(print);\n' };
}

const loader = 'globalThis.print = (...words) => console.log(words.map(String).join(" ")); require("vm").runInThisContext(require("fs").readFileSync(process.argv[1], "utf8"))';
const engines = {
  node: (file) => spawnSync(process.execPath, ['-e', loader, file], limits),
  duktape: (file) => spawnSync('duk', [file], limits),
  mujs: (file) => spawnSync('mujs', [file], limits),
};

function check_cases(engine) {
  const asked = cases.filter((one) => !one.not.includes(engine));
  const work = fs.mkdtempSync(path.join(os.tmpdir(), 'helpers-'));
  const file = path.join(work, 'cases.js');
  fs.writeFileSync(file, '"use strict";\n' + asked.map((one, at) => 'print("case ' + at + '");\n' + script(one.script).text).join(''));
  const answer = engines[engine](file);
  fs.rmSync(work, { recursive: true });
  const got = answer.stdout.toString().split(/^case \d+\n/m).slice(1);
  asked.forEach((one, at) => {
    const expected = native(one.native).map((line) => line + '\n').join('');
    if (got[at] !== expected) fail(engine + ': ' + one.name + '\nexpected\n' + expected + 'got\n' + got[at] + answer.stderr);
  });
  return asked.length;
}

// each helper that a script calls has a case, and no case shows nothing
function check_cover() {
  const all = new Set();
  for (const one of cases) {
    script(one.script).called.forEach((name) => all.add(name));
    const lines = native(one.native);
    if (lines.length === 0 || lines.some((line) => line.startsWith('threw '))) fail(one.name + ' shows ' + lines);
  }
  const names = fs.readFileSync(path.join(crate, '../../core_ast/src/parts.rt'), 'utf8').match(/pub enum Primitive \{([^}]*)\}/)[1];
  for (const [, word] of names.matchAll(/^ {4}(\w+)/gm)) {
    const name = word.replace(/\B[A-Z]/g, (letter) => '_' + letter).toLowerCase();
    if (!defined.has(name)) fail('nothing defines ' + name);
    if (!all.has(name)) fail('no case calls ' + name);
  }
}

const count = check_tables();
check_cover();
const said = Object.keys(engines).filter((engine) => engine === 'node' || process.argv.includes(engine));
console.log('helpers: ' + count + ' definitions use what their rows say; cases: ' + said.map((engine) => engine + ' ' + check_cases(engine)).join(', '));

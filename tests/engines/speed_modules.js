// Writes modules to measure with: `node speed_modules.js sample COUNT FOLDER`, the sample graph of so many modules, or `code BYTES FOLDER`, one module of so
// many bytes at most, whose functions are the programs of programs/ that are one module.
'use strict';
const fs = require('fs');
const path = require('path');
const { sampleGraph } = require('./rows_data.js');

const [kind, count, folder] = process.argv.slice(2);

// the bodies of the programs that import hosts by their own names alone, and export nothing
function bodies() {
  const programs = path.join(__dirname, 'programs');
  const found = [];
  for (const name of fs.readdirSync(programs).sort()) {
    const modules = fs.readdirSync(path.join(programs, name), { recursive: true }).filter((file) => file.endsWith('.js'));
    if (modules.length !== 1) continue;
    const text = fs.readFileSync(path.join(programs, name, 'main.js'), 'utf8');
    const body = text.replace(/^import *\{[a-z, ]*\} *from *"host";?/, '');
    if (body === text || / as /.test(text.slice(0, text.length - body.length)) || /\b(import|export)\b/.test(body)) continue;
    found.push(body);
  }
  return found;
}

function realCode(bytes) {
  const all = bodies();
  const parts = ['import {print, read, count} from "host";\n'];
  let size = parts[0].length;
  for (let turn = 0; ; turn++) {
    const part = `export function code${turn}() {\n${all[turn % all.length].trim()}\n}\n`;
    size += Buffer.byteLength(part);
    if (size > bytes) return { 'main.js': parts.join('') };
    parts.push(part);
  }
}

const files = kind === 'sample' ? sampleGraph(+count).files : realCode(+count);
fs.mkdirSync(folder, { recursive: true });
for (const [name, text] of Object.entries(files)) fs.writeFileSync(path.join(folder, name), text);

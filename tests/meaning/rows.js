// Small programs on both sides of each exit of the profile, and of rules that no engine shows, where runs of modules leave, and the rows of tests/engines: what
// is printed, and how the run ends, by the definitions. Usage: node --expose-internals rows.js
'use strict';
const { rows: engineRows, host } = require('../engines/rows_data.js');
const { head, rows, leaving } = require('../engines/exits_data.js');
const { runFiles, runSource } = require('./running.js');
const filesOf = (row) => row.files || { 'main.js': host + row.text };
let failed = 0;
const levels = ['s', '0', '01', '012', '0123', '01234'];
for (const level of levels) {
  for (const [source, ...expected] of rows) {
    // the script needs no exit where the modules left
    if (level.length === 5 && expected.at(-1).startsWith('left')) continue;
    let got;
    try { got = runSource(head + source, level).lines; } catch (error) { got = [error.message]; }
    if (JSON.stringify(got) !== JSON.stringify(expected)) { failed++; console.log(`level ${level.at(-1)}: ${source}: ${got.join('; ')}`); }
  }
}
for (const [number, marked] of leaving) {
  const source = head + marked.replace('¦', ''), at = head.length + marked.indexOf('¦');
  const { lines, left } = runSource(source, 's');
  const got = left === undefined ? lines.at(-1) : `left ${number} at ${left.at}`;
  if (got !== `left ${number} at ${at}` || lines.at(-1) !== `left ${number}`) { failed++; console.log(`level s: ${marked}: ${lines.at(-1)} at ${left && left.at}, not ${number} at ${at}`); }
}
// the rows of tests/engines, which have their lines from the rules by hand
const played = engineRows.filter((row) => row.lines && !row.words && !row.full && Object.keys(filesOf(row)).length < 100);
for (const row of played) {
  for (const level of ['s', '0']) {
    let got;
    try { got = runFiles(filesOf(row), level, row.answers || {}).lines; } catch (error) { got = [error.message]; }
    const shown = row.leaves ? got.slice(0, row.lines.length) : got;
    if (JSON.stringify(shown) !== JSON.stringify(row.lines)) { failed++; console.log(`level ${level}: ${row.name}: ${got.join('; ')}`); }
    if (row.leaves && level === 's' && !/^left/.test(got.at(-1))) { failed++; console.log(`level s: ${row.name} doesn't leave`); }
  }
}
console.log(`rows: ${rows.length} at ${levels.length} levels, ${leaving.length} places, ${played.length} of the engines, ${failed} failed`);
process.exitCode = failed === 0 ? 0 : 1;

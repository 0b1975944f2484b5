// Plays random programs by the meaning of modules against node's own modules; a run that leaves the profile has shown node's first lines. With a second
// number of levels, as `0`, the cores' runs too. Usage: node --expose-internals --experimental-vm-modules random.js SEED COUNT [LEVELS]
'use strict';
const { runModules: runNode } = require('../engines/programs_run.js');
const { randomProgram } = require('../engines/random_programs.js');
const { runFiles } = require('./running.js');

const [seed, count] = process.argv.slice(2, 4).map(Number), levels = process.argv[4] || 's';
(async () => {
  const told = { alike: 0, left: 0, 'left out': 0, failed: 0, events: 0, steps: 0 };
  for (let at = seed; at < seed + count; at++) {
    const { files, answers } = randomProgram(at);
    const node = await runNode(files, answers);
    if (node.refused || node.left.length > 0 || node.lines.at(-1) === 'still running') { told['left out']++; continue; }
    for (const level of levels) {
      let lines;
      try {
        const run = runFiles(files, level === 's' ? level : '0', answers);
        told.steps += run.steps;
        lines = run.lines;
      } catch (error) { lines = [error.message]; }
      const left = /^left [1-9]/.test(lines.at(-1)), wanted = left ? node.lines.slice(0, lines.length - 1) : node.lines, got = left ? lines.slice(0, -1) : lines;
      const differs = wanted.findIndex((line, i) => line !== got[i]);
      told.events += got.length;
      if (differs >= 0 || wanted.length !== got.length) { told.failed++; console.log(`random program ${at}, level ${level}: line ${differs + 1} is ${got[differs]}, not ${wanted[differs]}`); }
      else told[left ? 'left' : 'alike']++;
    }
  }
  console.log(`random: ${count} programs, levels ${levels}: ${Object.entries(told).map(([word, n]) => `${n} ${word}`).join(', ')}`);
  process.exitCode = told.failed === 0 ? 0 : 1;
})();

// Compares the files of the sample graph with those that rows_data.js makes of the same table. Usage: node sample.js PROGRAM.
'use strict';
const { spawnSync } = require('child_process');
const { sampleGraph } = require('./rows_data.js');
const counts = [1, 4, 5, 10, 1000];

for (const count of counts) {
  const { files } = sampleGraph(count);
  const expected = Object.entries(files).map(([path, text]) => `== ${path}\n${text}`).join('');
  const run = spawnSync(process.argv[2], { input: `${count}\n`, encoding: 'utf8', maxBuffer: 1 << 24 });
  if (run.status !== 0 || run.stdout !== expected) {
    console.log(`sample: the files of ${count} differ: ${run.stderr}`);
    process.exit(1);
  }
}
for (const count of [0, 1001]) {
  const run = spawnSync(process.argv[2], { input: `${count}\n`, encoding: 'utf8' });
  if (run.status === 0 || run.stdout !== '') {
    console.log(`sample: ${count} is not refused`);
    process.exit(1);
  }
}
console.log(`sample: the files of ${counts.join(', ')} modules are those of the table`);

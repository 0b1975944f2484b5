// Plays the examples of README.md with a program: what the page's commands print, and where its engines say that an error stands, is what it shows.
// Usage: node readme.js ES5C.
'use strict';
const { spawnSync } = require('child_process');
const fs = require('fs');
const os = require('os');
const path = require('path');

const page = fs.readFileSync(path.join(__dirname, '../../README.md'), 'utf8');
const work = fs.realpathSync(fs.mkdtempSync(path.join(os.tmpdir(), 'readme-')));
process.on('exit', () => fs.rmSync(work, { recursive: true, force: true }));
fs.symlinkSync(process.argv[2], path.join(work, 'es5c'));
for (const [, name, text] of page.matchAll(/`(\w+\.js)`\n\n```js\n([^]*?)```/g)) fs.writeFileSync(path.join(work, name), text);

const blocks = page.match(/(?:^ {4}.*\n)+/gm).map((block) => block.replace(/^ {4}/gm, '').replaceAll('/tmp/shop', work));
const begun = (start) => {
  const block = blocks.find((text) => text.startsWith(start));
  if (block === undefined) throw new Error(`README.md has no block that begins with ${start}`);
  return block;
};
const has = (engine) => spawnSync('sh', ['-c', `command -v ${engine}`]).status === 0;
// what is printed, and behind it what stands on the error stream
const run = (line) => {
  const { stdout, stderr } = spawnSync('sh', ['-c', line], { cwd: work, encoding: 'utf8' });
  return stdout + stderr;
};
let played = 0;
let failed = 0;

function hold(what, expected, got) {
  played += 1;
  if (got.startsWith(expected)) return;
  failed += 1;
  console.log(`readme: ${what}: README.md has\n${expected}but it prints\n${got}`);
}

run('./es5c build main.js > script.js');
run("echo 'global.print = console.log;' > host.js");
const printed = begun('pen: 3\n');
for (const engine of ['mujs', 'duk']) if (has(engine)) hold(engine, printed, run(`${engine} script.js`));
hold('node', printed, run('node -r ./host.js script.js'));
if (has('mujs')) hold('the lines of mujs', printed + begun('RangeError: '), run('mujs script.js'));
// engines of other editions write their frames otherwise
if (/^v20\./.test(process.version)) {
  const [command, ...lines] = begun('$ node --enable-source-maps').split('\n');
  hold('the places of node', lines.join('\n'), run(command.slice(2)));
}

const [split, ...names] = begun('$ ./es5c split').split('\n');
hold('the scripts of `split`', names.join('\n'), run(split.slice(2)));

// each command line and what stands below it
for (const block of blocks.filter((text) => /^\$ (printf|\.\/es5c sample) /.test(text))) {
  for (const [, line, expected] of block.matchAll(/^\$ (.*)\n((?:(?!\$ ).*\n)*)/gm)) hold(line, expected, run(line));
}
console.log(`readme: ${played} answers of the page's examples, ${failed} differ`);
process.exitCode = failed === 0 ? 0 : 1;

// What the program module_lines answers to texts. It reads texts, each behind a line with its length in bytes and the word that says
// what it is read as, and prints for each the nodes of the tree and what is found, or the fault, and a line `end`.
'use strict';
const { spawnSync } = require('child_process');
// MODULE_LINES=COMMAND stands for the program that is named.
const command = process.env.MODULE_LINES ? ['sh', ['-c', process.env.MODULE_LINES]] : [process.argv[2], []];
// So many texts are asked at once; a program that can't print much takes fewer.
const most = +(process.env.MODULES_AT_ONCE || 5000);

function answersOf(texts, goal) {
  const input = [];
  for (const text of texts) { const bytes = Buffer.from(text); input.push(Buffer.from(bytes.length + ' ' + goal + '\n'), bytes); }
  const run = spawnSync(command[0], command[1], { input: Buffer.concat(input), maxBuffer: 1 << 30 });
  if (run.status !== 0) throw new Error('the program ended with ' + (run.status === null ? run.signal || run.error : run.status) + ': ' + run.stderr);
  const out = run.stdout.toString();
  const found = /(^|\n)end\n$/.test(out) ? ('\n' + out).slice(0, -4).split('\nend\n').map((answer) => answer.replace(/^\n|\n$/g, '')) : [];
  if (found.length !== texts.length) throw new Error('modules: ' + found.length + ' answers to ' + texts.length + ' texts');
  return found;
}

// The lines of the answer to each text, which is read as the goal says: `module`, `expression`, `statement`, `pattern`, `parameters`.
function ask(texts, goal) {
  const list = [];
  for (let from = 0; from < texts.length; from += most) {
    for (const answer of answersOf(texts.slice(from, from + most), goal)) list.push(answer.split('\n'));
  }
  return list;
}

// The fault that an answer names, if it does.
function faultOf(lines) {
  const [word, ...numbers] = lines[0].split(' ');
  if (!/^(Syntax|Lexical|Outside|Depth|OutOfMemory)$/.test(word)) return null;
  return { fault: word, rule: word === 'Outside' ? +numbers[0] : undefined, at: +numbers[numbers.length - 1], line: lines[0] };
}

module.exports = { ask, faultOf };

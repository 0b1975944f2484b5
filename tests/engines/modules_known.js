// Holds the texts of which the answer is known to acorn, so that what is wanted of them rests on a second parser. Acorn knows nothing
// of what is outside the profile behind the grammar, nor of the depth.
'use strict';
const { peer } = require('./modules_acorn.js');
const { rows } = require('./modules_rows.js');

// Whether acorn says what is wanted: an early error or a fault at its place in bytes, or a tree.
function isSaid(text, wanted) {
  const [word, ...numbers] = wanted.split(' ');
  const theirs = peer(text);
  const bytes = (at) => Buffer.byteLength(text.slice(0, at));
  if (/^E\d/.test(word)) return Boolean(theirs.early) && bytes(theirs.early.at) === +numbers[0] && theirs.early.rules.includes(+word.slice(1));
  if (word === 'Lexical') return theirs.fault === word;
  if (word === 'Outside') return theirs.fault === word && theirs.rule === +numbers[0] && bytes(theirs.at) === +numbers[1];
  if (word === 'Syntax') return theirs.fault === word && bytes(theirs.at) === +numbers[0];
  return !theirs.fault && !theirs.early;
}

const kinds = {};
let failed = 0;
for (const [text, wanted] of rows) {
  const kind = wanted.split(' ')[0];
  kinds[kind] = (kinds[kind] || 0) + 1;
  if (isSaid(text, wanted)) continue;
  failed++;
  const theirs = peer(text);
  console.log('modules_known: wanted ' + wanted + ', acorn has ' + JSON.stringify(theirs.fault ? [theirs.fault, theirs.rule, theirs.at] : theirs.early || 'a tree') + ': ' + JSON.stringify(text.slice(0, 200)));
}
console.log('modules_known: ' + rows.length + ' texts: ' + JSON.stringify(kinds));
process.exit(failed === 0 && rows.length >= 400 ? 0 : 1);

// Compares the tokens of texts with those of acorn, the tokenizer inside node. Usage: node --expose-internals lexer_tokens.js PROGRAM.
// The texts are node's own library, which people wrote; programs of modules; short texts of line breaks, comments, literals and
// refusals; texts of which the answer of a reader is known; and a sample of the nestings of two productions, with comments and
// line breaks between the tokens and with no spaces between them. Each is cut at what the profile lacks: regular expressions,
// escapes in identifiers, private names and what acorn refuses. What follows on the next line is a text of its own.
'use strict';
const acorn = require('internal/deps/acorn/acorn/dist/acorn');
const { spawnSync } = require('child_process');
const { numbers, wholes, spaced, singles } = require('./modules_corpus.js');
const { programs } = require('./modules_programs.js');
const { rows } = require('./modules_rows.js');
const { byteOffsets } = require('./modules_tree.js');
const program = process.argv[2];
const options = { ecmaVersion: 7, sourceType: 'module' };

const hex = (text) => [...Array(text.length).keys()].map((i) => ' ' + text.charCodeAt(i).toString(16).padStart(4, '0')).join('');

// Acorn's tokens, until one that the profile lacks: where it begins, or the end of the text.
function peerTokens(text) {
  const tokens = [];
  const tokenizer = acorn.tokenizer(text, options);
  // The mark before a stretch of a template that stays open is a token of acorn's own.
  const upTo = (end) => ({ tokens, end: tokenizer.curContext().token === '`' ? tokens.pop().start : end });
  let last = 0;
  try {
    for (;;) {
      const token = tokenizer.getToken();
      const slice = text.slice(token.start, token.end);
      if (token.type.label === 'eof') return upTo(text.length);
      const isWord = token.type.label === 'name' || token.type.keyword;
      if (token.type.label === 'regexp' || token.type.label === 'privateId' || isWord && slice.includes('\\')) return { tokens, end: token.start };
      tokens.push(token);
      last = token.end;
    }
  } catch { return upTo(last); }
}

// Acorn's tokens in the form that the program prints.
function expected(text, tokens) {
  const offsets = byteOffsets(text);
  const lines = [];
  let before = 0;
  const put = (start, end, what) => {
    const newline = /[\n\r\u2028\u2029]/.test(text.slice(before, start));
    lines.push(`${offsets[start]} ${offsets[end]} ${newline} ${what}`);
    before = end;
  };
  for (let i = 0; i < tokens.length; i++) {
    const token = tokens[i];
    const slice = text.slice(token.start, token.end);
    const label = token.type.label;
    if (label === '`' || label === '${' || label === '}' && tokens[i + 1]?.type.label === 'template') continue;
    if (label === 'template') {
      const first = tokens[i - 1].type.label === '`';
      const close = tokens[i + 1];
      const raw = slice.replace(/\r\n?/g, '\n');
      put(tokens[i - 1].start, close.end, `Template ${first} ${close.type.label === '`'}${hex(token.value)} /${hex(raw)}`);
    } else if (label === 'name' || token.type.keyword) put(token.start, token.end, 'Word ' + slice);
    else if (label === 'string') put(token.start, token.end, 'Text' + hex(token.value));
    else if (label === 'num') {
      const marked = !/^0[xob]/i.test(slice) && /[.e]/i.test(slice);
      put(token.start, token.end, 'Number ' + (marked ? 'marked' : token.value > Number.MAX_SAFE_INTEGER ? 'large' : token.value));
    } else put(token.start, token.end, 'Punctuator');
  }
  put(text.length, text.length, 'End');
  return lines;
}

// The tokens of a text that acorn takes whole must be those that the program prints, and behind them the end. Counts them.
function compareWhole(name, text, tokens) {
  const wanted = expected(text, tokens);
  const ran = spawnSync(program, [], { input: text, maxBuffer: 1 << 30 });
  const found = ran.stdout.toString('utf8').trimEnd().split('\n').map((line) => line.replace(/ Punctuator .*/, ' Punctuator'));
  for (let i = 0; i < Math.max(wanted.length, found.length); i++) {
    if (wanted[i] !== found[i]) {
      console.log(`${name}: token ${i}: acorn has ${wanted[i]}, and the lexer ${found[i]}`);
      process.exit(1);
    }
  }
  return wanted.length - 1;
}

// Compares each stretch between two places that the profile lacks, and counts the tokens by stretch.
function compareStretches(name, whole) {
  const counts = [];
  let from = 0;
  for (let piece = 0; piece < 12 && (from < whole.length || from === 0); piece++) {
    const { end } = peerTokens(whole.slice(from));
    const text = whole.slice(from, from + end);
    const peer = peerTokens(text);
    const isWhole = text.length === whole.length;
    from += Math.max(end, 1);
    while (from < whole.length && whole[from] !== '\n') from++;
    if (peer.end === text.length && (isWhole || peer.tokens.length > 0)) counts.push(compareWhole(name, text, peer.tokens));
  }
  return counts;
}

let failed = false;
// Compares texts of a kind, of which a number of texts and tokens is expected at least, so that none is lost unseen. A text in
// which the profile lacks the first token already has nothing to compare.
function compare(kind, texts, leastTexts, leastTokens) {
  const counts = texts.map(([name, text]) => compareStretches(name, text)).filter((stretches) => stretches.length > 0);
  const tokens = counts.flat().reduce((sum, count) => sum + count, 0);
  console.log(`lexer_tokens: ${kind}: ${tokens} tokens of ${counts.length} texts in ${counts.flat().length} stretches agree with acorn`);
  if (counts.length >= leastTexts && tokens >= leastTokens) return;
  failed = true;
  console.log(`lexer_tokens: ${kind}: at least ${leastTokens} tokens of ${leastTexts} texts were expected`);
}
const named = (texts) => [...new Set(texts)].map((text) => [JSON.stringify(text.slice(0, 100)), text]);

// Without the spaces that part no words or numbers, so that punctuators meet. A `$` of a template must not meet a brace.
const tight = (text) => text.replace(/(?<![\w$]) |(?<!\$) (?![\w$.])/g, '');
// Each nesting of the sample is taken in two forms, and many together are one text, since the program is run once a text.
function nestings() {
  const random = numbers(20150617);
  const sample = [...new Set(wholes())].filter(() => random(6) === 0);
  const lines = sample.flatMap((text) => [spaced(text, random), tight(text)]);
  const texts = [];
  for (let from = 0; from < lines.length; from += 500) texts.push([`nestings from ${from}`, lines.slice(from, from + 500).join('\n')]);
  return texts;
}

const library = Object.entries(process.binding('natives')).filter(([, text]) => typeof text === 'string');
compare('the library of node', library, 200, 100000);
compare('programs', named(programs), 74, 3400);
compare('short texts', named(singles), 1160, 7500);
compare('texts with a known answer', named(rows.map(([text]) => text)), 385, 28500);
compare('nestings of two productions', nestings(), 85, 850000);
process.exit(failed ? 1 : 0);

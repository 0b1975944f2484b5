// Holds source maps to independent programs. `node maps_compare.js PROGRAM`, where PROGRAM is the built
// map_lines: it reads the text of a map, and prints it as our writer gives it, then its segments.
//
// 1. Maps that the writer of this file makes (at random, and by hand) are read as the segments that they
//    were made of.
// 2. What our writer makes of them is read by node's own `module.SourceMap`, segment by segment, and by the
//    package `source-map` where it is there, 0.6 or 0.7.
// 3. Both readers see each segment that is changed.
// 4. Texts with a fault are refused.
"use strict";

const { execFileSync } = require("child_process");
const { SourceMap } = require("module");

const program = process.argv[2];
const LETTERS = "ABCDEFGHIJKLMNOPQRSTUVWXYZabcdefghijklmnopqrstuvwxyz0123456789+/";
let failures = 0;

function check(holds, what) {
  if (!holds) {
    failures += 1;
    console.log(`maps_compare: ${what}`);
  }
}

// A generator of numbers that gives the same ones in each run.
let seed = 20150617;
function below(limit) {
  seed = (Math.imul(seed, 1103515245) + 12345) >>> 0;
  return Math.floor((seed / 4294967296) * limit);
}

// ---- an independent writer

function vlq(number) {
  let rest = BigInt(Math.abs(number)) * 2n + (number < 0 ? 1n : 0n);
  let text = "";
  do {
    let digit = Number(rest % 32n);
    rest /= 32n;
    if (rest > 0n) digit += 32;
    text += LETTERS[digit];
  } while (rest > 0n);
  return text;
}

function mappings(segments) {
  const before = [0, 0, 0, 0, 0];
  let line = 0;
  let first = true;
  let text = "";
  for (const [to, ...fields] of segments) {
    for (; line < to; line += 1) {
      text += ";";
      before[0] = 0;
      first = true;
    }
    if (!first) text += ",";
    first = false;
    fields.forEach((value, k) => {
      text += vlq(value - before[k]);
      before[k] = value;
    });
  }
  return text;
}

function document(sources, names, characters) {
  return JSON.stringify({ file: "out.js", mappings: characters, names, sourceRoot: "", sources, version: 3 });
}

// ---- random maps

function randomSegments(count, sources, names, wide) {
  const segments = [];
  let line = 0;
  let column = 0;
  for (let k = 0; k < count; k += 1) {
    if (below(8) === 0) {
      line += 1 + (below(10) === 0 ? below(5) : 0);
      column = below(wide);
    } else if (k > 0) {
      column += 1 + below(wide);
    }
    const segment = [line, column];
    // node reads a last segment of one field as one of four, so no map here ends with one.
    const kind = k === count - 1 ? 5 : below(10);
    if (kind > 0) segment.push(below(sources), below(wide * 100), below(wide * 10));
    if (kind > 6) segment.push(below(names));
    segments.push(segment);
  }
  return segments;
}

function run(text) {
  return execFileSync(program, { input: text, maxBuffer: 1 << 28 }).toString().split("\n");
}

// ---- the readers

// how many segments node reads otherwise
function nodeDiffers(text, segments) {
  const map = new SourceMap(JSON.parse(text));
  let wrong = 0;
  for (const [line, column, source, sourceLine, sourceColumn] of segments) {
    const entry = map.findEntry(line, column);
    const there = entry.generatedLine === line && entry.generatedColumn === column;
    const same = source === undefined
      ? entry.originalSource === undefined
      : entry.originalSource === `s${source}.js` && entry.originalLine === sourceLine && entry.originalColumn === sourceColumn;
    if (!there || !same) wrong += 1;
  }
  return wrong;
}

const library = (() => {
  try {
    return require("source-map");
  } catch {
    return null;
  }
})();

// The segments as the package reads them, or its refusal. In a segment of one field 0.6 gives a source all the same, `.`, and 0.7 none; neither gives a
// line. What is left out is null or undefined.
async function packageReads(text) {
  const read = [];
  try {
    const consumer = await new library.SourceMapConsumer(JSON.parse(text));
    consumer.eachMapping(({ generatedLine, generatedColumn, source, originalLine, originalColumn, name }) => {
      const segment = [generatedLine - 1, generatedColumn];
      if (typeof originalLine === "number") segment.push(source, originalLine - 1, originalColumn);
      if (typeof name === "string") segment.push(name);
      read.push(segment.join(" "));
    });
    if (consumer.destroy) consumer.destroy();
  } catch (error) {
    return String(error);
  }
  return read.join("\n");
}

function named(segments) {
  return segments.map(([line, column, source, sourceLine, sourceColumn, name]) => {
    const segment = [line, column];
    if (source !== undefined) segment.push(`s${source}.js`, sourceLine, sourceColumn);
    if (name !== undefined) segment.push(`n${name}`);
    return segment.join(" ");
  }).join("\n");
}

// how the readers that are there differ from the segments
async function differences(text, segments) {
  const wrong = nodeDiffers(text, segments);
  const found = wrong === 0 ? [] : [`node's SourceMap differs at ${wrong} of ${segments.length} segments`];
  if (library && await packageReads(text) !== named(segments)) found.push("the package source-map differs");
  return found;
}

const listOf = (front, count) => Array.from({ length: count }, (_, k) => `${front}${k}`);

async function compare(segments, sources, names, what) {
  const sourceList = listOf("s", sources).map((name) => `${name}.js`);
  const nameList = listOf("n", names);
  const characters = mappings(segments);
  const [text, ...lines] = run(document(sourceList, nameList, characters));
  check(text === JSON.stringify({ version: 3, sources: sourceList, names: nameList, mappings: characters }), `${what}: another text`);
  check(lines.join("\n") === segments.map((segment) => `${segment.join(" ")}\n`).join(""), `${what}: other segments`);
  for (const difference of await differences(text, segments)) check(false, `${what}: ${difference}`);
}

// Maps with one field changed, or without one segment, in place of those that are due: each reader that is there has to differ. Names are the
// package's alone.
async function seeChanges() {
  const [sources, names] = [5, 5];
  const readers = library ? 2 : 1;
  const segments = randomSegments(60, sources, names, 40);
  const wrongly = async (changed, least, what) => {
    const characters = mappings(changed);
    const text = JSON.stringify({ version: 3, sources: listOf("s", sources + 1).map((name) => `${name}.js`), names: listOf("n", names + 1), mappings: characters });
    const found = await differences(text, segments);
    check(found.length >= least, `${what} isn't seen: ${found.join(", ")}`);
  };
  for (let at = 0; at < segments.length; at += 1) {
    for (let field = 1; field < segments[at].length; field += 1) {
      const changed = segments.map((segment) => segment.slice());
      changed[at][field] += 1;
      const next = changed[at + 1];
      // two segments at one place are no map
      if (field === 1 && next && next[0] === changed[at][0] && next[1] === changed[at][1]) continue;
      await wrongly(changed, field < 5 ? readers : readers - 1, `field ${field} of segment ${at}`);
    }
    await wrongly(segments.filter((_, k) => k !== at), readers, `segment ${at} left out`);
  }
}

// ---- what is refused, as docs/SOURCE_MAP.md says

const MOST = 2147483647;
const REFUSED = [
  ["A!", "BadDigit at 1"],
  ["AA", "BadFields at 0"],
  ["AAAA,AAAA", "BadIndex at 5"],
  ["AAAA,CCAA", "BadIndex at 6"],
  ["AAAAC", "BadIndex at 4"],
  ["AAAg", "BadDigit at 3"],
  ["AAggggggggA", "BadDigit at 2"],
  [`${vlq(MOST)},C`, "BadIndex at 8"],
  [vlq(MOST + 1), "BadDigit at 0"],
];

function refuse() {
  for (const [characters, want] of REFUSED) {
    const [answer] = run(document(["a.js"], ["n"], characters));
    check(answer === want, `${characters}: ${answer} in place of ${want}`);
  }
  check(run("{}")[0] === "BadJson", "{} is read");
  check(run('{"version":2,"sources":[],"names":[],"mappings":""}')[0] === "BadVersion", "version 2 is read");
}

// The largest distance that the package reads: 0.6 takes a field of 32 bits for one below zero.
async function mostOfPackage() {
  const segments = [[0, MOST, 0, 0, 0]];
  const text = JSON.stringify({ version: 3, sources: ["s0.js"], names: [], mappings: mappings(segments) });
  return !library || await packageReads(text) === named(segments) ? MOST : (1 << 30) - 1;
}

async function main() {
  for (let round = 0; round < 40; round += 1) {
    const wide = [3, 40, 1000, 200000][round % 4];
    const sources = 1 + below(20);
    const names = 1 + below(20);
    await compare(randomSegments(200 + below(400), sources, names, wide), sources, names, `round ${round}`);
  }
  await compare(randomSegments(100000, 300, 2000, 30), 300, 2000, "100,000 segments");
  const largest = (most) => [[0, 0, 0, most, most], [0, most, 0, 0, 0], [3, 1, 0, most, 0, 0]];
  const most = await mostOfPackage();
  await compare(largest(most), 1, 1, "the largest numbers of all readers");
  if (most < MOST) {
    const [text] = run(document(["s0.js"], ["n0"], mappings(largest(MOST))));
    check(nodeDiffers(text, largest(MOST)) === 0, "the largest numbers: node's SourceMap differs");
  }
  await seeChanges();
  refuse();
  const verdict = failures === 0 ? "all maps agree" : `${failures} differences`;
  console.log(`maps_compare: ${verdict}${library ? ", with the package source-map" : ""}`);
  process.exit(failures === 0 ? 0 : 1);
}

main();

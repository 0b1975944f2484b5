// Plays the rows of rows_data.js with the program: what `build` and `map` write or refuse, and what the scripts do in node, in a realm cut down to the
// library of the 5.1 edition, and in small engines. The map that `map` writes is the one in the script's last line, and takes each event's call to a
// call in the modules. Usage: node --expose-internals rows.js ES5C [NAME ..]
'use strict';
const { spawnSync } = require('child_process');
const fs = require('fs');
const os = require('os');
const path = require('path');
const { runScripts, runEngine, toldBy, mappedPlaces } = require('./programs_run.js');
const { scriptsOf, textFaults } = require('./split_texts.js');
const { rows, host } = require('./rows_data.js');

const [command, ...only] = process.argv.slice(2);
const engines = ['duk', 'mujs'].filter((name) => process.env.PATH.split(':').some((folder) => fs.existsSync(path.join(folder, name))));
const work = fs.mkdtempSync(path.join(os.tmpdir(), 'rows-'));
process.on('exit', () => fs.rmSync(work, { recursive: true, force: true }));
const front = '//# sourceMappingURL=data:application/json;base64,';

function run(folder, words, output) {
  const { status, stdout, stderr } = spawnSync(command, words, { cwd: folder, encoding: 'utf8', maxBuffer: 1 << 28, stdio: ['ignore', output || 'pipe', 'pipe'] });
  return { status, stdout, stderr };
}
function same(got, status, out, error) {
  if (got.status === status && (out === undefined || got.stdout === out) && got.stderr === error) return null;
  return `status ${got.status}, ${JSON.stringify(got.stderr.slice(0, 300))}${out === undefined ? '' : ` and ${got.stdout.length} characters on the output`}, not ${status}, ${JSON.stringify(error)}`;
}

// What `map` says of a script.
function mapFault(row, folder, script) {
  fs.writeFileSync(path.join(folder, 'script.js'), script);
  const mapped = run(folder, ['map', 'script.js']);
  if (row.unmapped) return same(mapped, 1, '', 'script.js: map fault NoMap\n');
  const line = script.trimEnd().split('\n').pop();
  if (!line.startsWith(front)) return 'the script has no map';
  const text = Buffer.from(line.slice(front.length), 'base64').toString('utf8');
  const fault = same(mapped, 0, `${text}\n`, '');
  if (fault) return `map: ${fault}`;
  const { version, sources, names } = JSON.parse(text);
  if (version !== 3 || names.length > 0 || row.map && JSON.stringify(sources) !== JSON.stringify(row.map)) return `map: ${text.slice(0, 200)}`;
  return null;
}

// Where the events stand.
async function placeFault(row, folder, scripts, events) {
  const wrong = (await mappedPlaces(scripts, events)).find((place) => {
    const [name, at, column] = place.split(':');
    if (row.at && name !== row.at || !fs.existsSync(path.join(folder, name))) return true;
    return !/^(print|read|count)\b/.test(fs.readFileSync(path.join(folder, name), 'utf8').split('\n')[at - 1].slice(column));
  });
  return wrong ? `an event is at ${wrong}` : null;
}

// How a run's lines differ from these of the row.
function difference(row, due, lines) {
  const shown = row.leaves ? lines.slice(0, due.length) : lines;
  return shown.join('\n') === due.join('\n') ? null : JSON.stringify(lines.slice(0, 12));
}

async function faultOf(row) {
  const folder = fs.mkdtempSync(path.join(work, 'row-'));
  const files = row.files || { 'main.js': host + row.text };
  for (const [name, text] of Object.entries(files)) {
    if (text === null) fs.mkdirSync(path.join(folder, name));
    else fs.writeFileSync(path.join(folder, name), text);
  }
  const words = row.words || ['build', 'main.js'];
  if (row.full) return fs.existsSync('/dev/full') ? same(run(folder, words, fs.openSync('/dev/full', 'w')), 4, undefined, '') : null;
  const built = run(folder, words);
  if (row.refused) return same(built, row.status || 1, '', row.refused + '\n');
  const fault = same(built, 0, undefined, '');
  if (fault) return fault;
  const isSplit = words[0] === 'split';
  const scripts = isSplit ? scriptsOf(Buffer.from(built.stdout)) : [{ name: 'the script', text: built.stdout }];
  if (isSplit && textFaults(scripts).length > 0) return textFaults(scripts).join('; ');
  if (scripts.some(({ text }) => !text.startsWith('"use strict";\n'))) return 'a script has no directive';
  if (row.most && built.stdout.length > row.most) return `${built.stdout.length} characters`;
  if (!row.lines) return null;
  const events = runScripts(scripts, row.answers || {});
  const differs = difference(row, row.lines, events.lines) || !row.leaves && events.left.length > 0 && `it leaves at ${events.left[0]}`;
  if (differs) return `in node ${differs}`;
  for (const engine of engines) {
    const reason = (row.without || {})[engine];
    const differs = difference(row, toldBy(engine, scripts, row.lines), runEngine(engine, work, scripts, row.answers || {}));
    if (differs && !reason) return `in ${engine} ${differs}`;
    if (!differs && reason) return `in ${engine} nothing differs, so \`without\` is needless`;
  }
  for (const { text } of scripts) {
    const fault = mapFault(row, folder, text);
    if (fault) return fault;
  }
  return row.unmapped ? null : placeFault(row, folder, scripts, events);
}

(async () => {
  let [played, failed] = [0, 0];
  for (const row of rows) {
    if (only.length > 0 && !only.includes(row.name)) continue;
    played++;
    const fault = await faultOf(row);
    if (!fault) continue;
    failed++;
    console.log(`rows: ${row.name}: ${fault}`);
  }
  console.log(`rows: ${played} played in ${['node', ...engines].join(', ')}, ${failed} differ`);
  process.exitCode = failed === 0 ? 0 : 1;
})();

// Runs a built script in a fresh realm of node, or its module in node's own modules, and prints the events and the ending.
// usage: node --experimental-vm-modules first_node.js script|module FILE ANSWERS
'use strict';
const fs = require('fs');
const path = require('path');
const vm = require('vm');

const [kind, file, answersFile] = process.argv.slice(2);
const makeHosts = vm.runInThisContext(`(${fs.readFileSync(path.join(__dirname, 'first_hosts.js'), 'utf8').replace(/^\/\/.*$/gm, '')})`);
const answers = fs.existsSync(answersFile) ? JSON.parse(fs.readFileSync(answersFile, 'utf8')) : {};
const { hosts, show } = makeHosts(line => process.stdout.write(line + '\n'), answers, ['print', 'read', 'count']);
const text = fs.readFileSync(file, 'utf8');

function ended(thrown) {
  process.stdout.write(thrown.length ? `threw ${show(thrown[0])}\n` : 'ended\n');
}

async function runModule() {
  const context = vm.createContext({});
  const host = new vm.SyntheticModule(Object.keys(hosts), function () {
    for (const name of Object.keys(hosts)) this.setExport(name, hosts[name]);
  }, { context });
  const main = new vm.SourceTextModule(text, { context });
  await main.link(() => host);
  await main.evaluate();
}

async function main() {
  const thrown = [];
  try {
    if (kind === 'module') await runModule();
    else vm.runInContext(text, vm.createContext({ ...hosts }));
  } catch (error) {
    thrown.push(error);
  }
  ended(thrown);
}
main();

// Compiles all modules of a folder to ES5 in one process, by Babel or TypeScript, with source maps, and prints what comes of them one after another. No
// types are checked. Usage: node speed_compile.js babel|typescript FOLDER. As a library it gives `compile(kind)`, from a text to a text.
'use strict';
const fs = require('fs');
const path = require('path');

const compilers = {
  babel() {
    const babel = require('@babel/core');
    const preset = [require.resolve('@babel/preset-env'), { targets: 'ie 9', modules: 'commonjs' }];
    return (text) => babel.transformSync(text, { presets: [preset], configFile: false, babelrc: false, compact: false, sourceMaps: 'inline' }).code;
  },
  typescript() {
    const typescript = require('typescript');
    const compilerOptions = { target: 'ES5', module: 'CommonJS', downlevelIteration: true, inlineSourceMap: true };
    return (text) => typescript.transpileModule(text, { compilerOptions }).outputText;
  },
};
module.exports = { compile: (kind) => compilers[kind]() };

if (require.main === module) {
  const [kind, folder] = process.argv.slice(2);
  const compile = compilers[kind]();
  for (const name of fs.readdirSync(folder).sort()) {
    if (name.endsWith('.js')) process.stdout.write(compile(fs.readFileSync(path.join(folder, name), 'utf8')) + '\n');
  }
}

// Turns the definitions of specs/ into JavaScript, one function a definition under its own name, so that they can be run: clauses on constructors,
// records, lists, numbers, `if`, `let` and λ. Types are dropped. What the kit's library defines stands in words.js.
'use strict';
const fs = require('fs');
const path = require('path');
const words = require('./words.js');

const crates = path.join(__dirname, '..', '..', 'crates');
const modules = new Map(); // 'crate/Module' -> module
const unknown = new Set(); // names that nothing defines, or that aren't imported
const mangled = (text) => text.replace(/[^A-Za-z0-9_]/g, (c) => '$' + c.codePointAt(0).toString(16));

// ---- the enums of Rust sources: how many values each variant holds, by crate and type, with the modules that lead to it

const enums = new Map();
function sourcesIn(folder, modules = []) {
  if (!fs.existsSync(folder)) return [];
  return fs.readdirSync(folder, { withFileTypes: true }).flatMap((entry) => {
    const file = path.join(folder, entry.name);
    if (entry.isDirectory()) return sourcesIn(file, [...modules, entry.name]);
    return entry.name.endsWith('.rt') ? [{ file, module: [...modules, entry.name.slice(0, -3)].join('.') }] : [];
  });
}
function readEnums(crate) {
  if (enums.has(crate)) return enums.get(crate);
  const types = new Map();
  enums.set(crate, types);
  for (const { file, module } of sourcesIn(path.join(crates, crate, 'src'))) {
    const text = fs.readFileSync(file, 'utf8').replace(/\/\/.*$/gm, '').replace(/#\[[^\]]*\]/g, '');
    for (const found of text.matchAll(/(?:pub(?:\(crate\))? )?enum (\w+)(?:<[^>]*>)?\s*\{/g)) {
      let depth = 1, at = found.index + found[0].length, start = at;
      for (; depth > 0; at++) depth += '{(<['.includes(text[at]) ? 1 : '})>]'.includes(text[at]) ? -1 : 0;
      const variants = new Map();
      for (const part of topLevel(text.slice(start, at - 1), ',')) {
        const variant = /^\s*(\w+)\s*([({]?)([\s\S]*)/.exec(part);
        if (variant) variants.set(variant[1], variant[2] ? topLevel(variant[3].replace(/[)}]\s*$/, ''), ',').filter((x) => x.trim()).length : 0);
      }
      types.set(`${module}.${found[1]}`, { variants, module });
    }
  }
  return types;
}
function topLevel(text, separator) {
  const parts = [];
  let depth = 0, part = '';
  for (const c of text) {
    if ('{(<['.includes(c)) depth++;
    if ('})>]'.includes(c)) depth--;
    if (c === separator && depth === 0) { parts.push(part); part = ''; } else part += c;
  }
  parts.push(part);
  return parts;
}

// ---- tokens

function tokensOf(text) {
  const tokens = [];
  const pattern = /"((?:[^"\\]|\\.)*)"|\[\]|[(){}[\];,]|[^\s(){}[\];,"]+/g;
  for (const found of text.matchAll(pattern)) {
    if (found[1] !== undefined) tokens.push({ string: JSON.parse(`"${found[1]}"`) });
    else if (found[0] === '.' ) tokens.push({ text: '.' });
    else if (/^[^.].*\.$/.test(found[0]) && !/^\.+$/.test(found[0])) tokens.push({ text: found[0].slice(0, -1) }, { text: '.' });
    else if (found[0].startsWith('.')) tokens.push({ projection: found[0].slice(1).split('.') });
    else tokens.push({ text: found[0].replace(/[«»]/g, '') });
  }
  return tokens;
}
const binary = { '||': [2, 1], '&&': [3, 1], '==': [4, 0], '∷': [5, 1], '++': [5, 1], '+': [6, 0], '-': [6, 0], '+ℤ': [6, 0], '-ℤ': [6, 0], '*': [7, 0], '/': [7, 0], '%': [7, 0], '*ℤ': [7, 0], '^': [8, 1] };

// ---- expressions and patterns, as trees

class Reader {
  constructor(text) { this.tokens = tokensOf(text); this.at = 0; this.ifs = 0; }
  get next() { return this.tokens[this.at]; }
  is(text) { return this.next !== undefined && this.next.text === text; }
  take(text) {
    if (!this.is(text)) throw new Error(`${text} is missing at ${JSON.stringify(this.tokens.slice(this.at, this.at + 5))}`);
    this.at++;
  }
  took(text) { if (this.is(text)) { this.at++; return true; } return false; }
  expression() {
    if (this.took('λ')) {
      const binders = [];
      while (!this.took('.')) {
        if (this.took('(')) { binders.push(this.next.text); while (!this.took(')')) this.at++; } else { binders.push(this.next.text); this.at++; }
      }
      return { lambda: binders, body: this.expression() };
    }
    if (this.took('let')) {
      const name = this.next.text; this.at++;
      if (!this.is('=')) while (!this.is('=')) this.at++;
      this.take('=');
      const value = this.expression();
      this.take('in');
      return { let: name, value, body: this.expression() };
    }
    if (this.took('if')) {
      this.ifs++;
      const test = this.expression(); this.take('then');
      const yes = this.expression(); this.take('else');
      this.ifs--;
      return { if: test, yes, no: this.expression() };
    }
    return this.operators(0);
  }
  operators(level) {
    let left = this.application();
    for (;;) {
      const operator = this.next && this.next.text;
      const rank = operator !== undefined && binary[operator];
      if (!rank || rank[0] < level) return left;
      this.at++;
      const right = this.is('λ') || this.is('let') || this.is('if') ? this.expression() : this.operators(rank[1] ? rank[0] : rank[0] + 1);
      left = { operator, left, right };
    }
  }
  application() {
    const head = this.atom();
    if (!head) throw new Error(`no expression at ${JSON.stringify(this.tokens.slice(this.at, this.at + 5))}`);
    const args = [];
    for (;;) {
      if (this.is('{')) { this.skipBraces(); continue; }
      const arg = this.atom();
      if (!arg) break;
      args.push(arg);
    }
    return args.length > 0 ? { call: head, args } : head;
  }
  // the rest of a type in parentheses
  skipType() { for (let depth = 0; depth > 0 || !this.is(')'); this.at++) depth += this.is('(') ? 1 : this.is(')') ? -1 : 0; }
  skipBraces() { let depth = 0; do { if (this.is('{')) depth++; if (this.is('}')) depth--; this.at++; } while (depth > 0); }
  atom() {
    const token = this.next;
    if (token === undefined) return null;
    let atom;
    if (token.string !== undefined) { this.at++; return { string: token.string }; }
    if (token.projection) return null;
    if (token.text === '(') {
      // `then` and `else` are names where no `if` is open
      const outer = this.ifs;
      this.ifs = 0;
      this.at++;
      const parts = [this.expression()];
      if (this.is('→') || this.is('×')) this.skipType();
      while (this.took(',')) parts.push(this.expression());
      this.take(')');
      this.ifs = outer;
      atom = parts.length > 1 ? { tuple: parts } : parts[0];
    } else if (token.text === 'record') {
      this.at++;
      const base = this.is('{') ? null : this.atom();
      this.take('{');
      const fields = [];
      while (!this.took('}')) {
        const name = this.next.text; this.at++;
        this.take('=');
        fields.push([name, this.expression()]);
        this.took(';');
      }
      atom = { record: fields, base };
    } else if (this.ifs > 0 && /^(then|else)$/.test(token.text)) return null;
    else if (/^(\)|\}|\{|;|,|=|→|in|\.|:|←|where|λ|let|if|≡|×|⊎|≤|<)$/.test(token.text) || binary[token.text]) return null;
    else { this.at++; atom = { path: token.text.split('.') }; if (/^\d|^0x/.test(token.text)) atom = { number: Number(token.text) }; }
    while (this.next && this.next.projection) { atom = { project: this.next.projection, of: atom }; this.at++; }
    return atom;
  }
  // patterns up to `=`
  patterns() {
    const all = [];
    while (!this.took('=')) {
      if (this.is('{')) { this.skipBraces(); continue; }
      all.push(this.patternAtom());
    }
    return all;
  }
  patternAtom() {
    if (this.took('(')) {
      const parts = [this.pattern()];
      while (this.took(',')) parts.push(this.pattern());
      this.take(')');
      return parts.length > 1 ? { tuple: parts } : parts[0];
    }
    const name = this.next.text; this.at++;
    return { name, args: [] };
  }
  pattern() {
    const head = this.patternAtom();
    const args = [];
    while (!this.is(')') && !this.is(',') && !this.is('∷')) args.push(this.patternAtom());
    const whole = args.length > 0 ? { name: head.name, args } : head;
    if (this.took('∷')) return { head: whole, tail: this.pattern() };
    return whole;
  }
}

// ---- files

const isConstructorName = (name) => /^[A-Z]/.test(name);
const kitTypes = new Set(['Unit', 'tt', 'Type', '⊥', 'ℕ', 'ℤ', 'Bool', 'List', 'Option', 'Result']);
const special = new Set(['true', 'false', 'zero', 'suc', 'pos', 'negsuc', '[]']);

// the items of a text whose declarations begin at this column, with their further lines
function itemsOf(lines, column) {
  const items = [];
  for (const whole of lines) {
    const line = whole.replace(/ -- .*$/, '');
    if (line.trim() === '' || line.trim().startsWith('--')) continue;
    const indent = line.length - line.trimStart().length;
    if (indent <= column && !/^[})\]]/.test(line.trim())) items.push([line.slice(column)]);
    else items[items.length - 1].push(line.slice(column));
  }
  return items;
}
function definitionsIn(items) {
  const definitions = new Map();
  const typed = new Map();
  for (const lines of items) {
    const text = lines.join('\n');
    const signature = /^(?:abbrev |unfoldable )?(?:pub )?([^\s:]+) :([\s\S]*)$/.exec(text);
    if (signature && !/ = /.test(text.split('\n')[0].replace(/\{[^}]*\}/g, ''))) { typed.set(signature[1], /Type [01]\s*$/.test(text)); continue; }
    const split = lines.findIndex((line) => /^\s+where$/.test(line));
    const own = split < 0 ? lines : lines.slice(0, split);
    const local = split < 0 ? null : definitionsIn(itemsOf(lines.slice(split + 1), lines[split + 1].length - lines[split + 1].trimStart().length));
    const name = /^\S+/.exec(text)[0];
    if (!definitions.has(name)) definitions.set(name, []);
    definitions.get(name).push({ text: own.join('\n').slice(name.length), local });
  }
  return { definitions, typed };
}
// definitions may be changed, to see that a test tells: CHANGED is a list of edits, each with the module, what stands there once, and what is to stand there
const changed = JSON.parse(process.env.CHANGED || '[]');
function textOf(key, file) {
  let text = fs.readFileSync(file, 'utf8');
  for (const [where, old, now] of changed) {
    if (where !== key) continue;
    if (text.split(old).length !== 2) throw new Error(`${key}: not there once: ${old}`);
    text = text.replace(old, () => now);
  }
  return text;
}
function moduleOf(crate, name) {
  const key = `${crate}/${name}`;
  if (modules.has(key)) return modules.get(key);
  const file = path.join(crates, crate, 'specs', `${name}.antt`);
  if (!fs.existsSync(file)) throw new Error(`there is no module ${key}`);
  const module = { key, crate, names: new Map(), types: new Set(), constructors: new Map(), definitions: null };
  modules.set(key, module);
  const rest = [];
  for (const lines of itemsOf(textOf(key, file).split('\n'), 0)) {
    const text = lines.join('\n');
    const data = /^pub (data|record) (\S+)/.exec(text);
    if (data) {
      module.types.add(data[2]);
      if (data[1] === 'data') for (const line of itemsOf(lines.slice(1), 2)) {
        const found = /^(\S+) :([\s\S]*)$/.exec(line.join('\n'));
        module.constructors.set(found[1], arrows(found[2]));
      }
    } else if (/^(pub )?use /.test(text)) use(module, text.replace(/^pub /, ''));
    else if (!/^(pub )?mod |^ruleset/.test(text)) rest.push(lines);
  }
  const { definitions, typed } = definitionsIn(rest);
  module.definitions = definitions;
  for (const [name, isType] of typed) if (isType) module.types.add(name);
  return module;
}
function arrows(type) {
  let depth = 0, count = 0;
  for (const c of type.replace(/\s+/g, ' ')) {
    if ('({'.includes(c)) depth++;
    if (')}'.includes(c)) depth--;
    if (c === '→' && depth === 0) count++;
  }
  return count - (type.match(/\{[^}]*\}\s*→/g) || []).length;
}
// what an imported name is: a module's item, a constructor, a type, or a word of the kit
function imported(where, name) {
  const parts = where.split('.');
  const crate = parts[1];
  if (!fs.existsSync(path.join(crates, crate))) {
    if (parts[parts.length - 1] === 'TheVariants') return { variant: name, arity: 0 };
    return kitTypes.has(name) ? { type: true } : { word: name };
  }
  if (parts[3] === 'declared') {
    const last = parts[parts.length - 1];
    if (last === 'TheVariants' || last === 'TheOpen') {
      const type = parts.slice(4, -1).join('.');
      const types = readEnums(crate);
      if (last === 'TheVariants') {
        if (!types.has(type)) throw new Error(`${where}: no enum`);
        return { variant: name, arity: types.get(type).variants.get(name) };
      }
      if (/-F$/.test(name)) return { type: true };
      for (const { variants, module } of types.values()) if (module === parts.slice(4, -2).join('.') && variants.has(name)) return { variant: name, arity: variants.get(name) };
      return { type: true };
    }
    if (/^(out|roll)-/.test(name)) return { word: 'itself' };
    if (/^fold-/.test(name)) return { word: name };
    return { type: true };
  }
  const module = moduleOf(crate, parts.slice(3).join('/'));
  if (module.types.has(name)) return { type: true };
  if (module.constructors.has(name)) return { variant: name, arity: module.constructors.get(name) };
  if (module.definitions.has(name)) return { module, name };
  if (module.names.has(name)) return module.names.get(name)();
  return { missing: `${where}.${name}` };
}
function use(module, text) {
  const items = /^use ([\w.'-]+)\.\{([\s\S]*)\}\s*$/.exec(text);
  if (items) {
    for (const item of items[2].split(',')) {
      const [name, alias] = item.trim().split(' as ');
      const cached = once(() => imported(items[1], name));
      module.names.set((alias || name).replace(/◌/g, ''), cached);
      if (name.includes('◌')) module.names.set(name, cached);
    }
    return;
  }
  const whole = /^use ([\w.]+)(?: as (\S+))?\s*$/.exec(text);
  const alias = whole[2] || whole[1].split('.').pop();
  module.names.set(alias, () => ({ alias: whole[1] }));
}
function once(f) { let value, has = false; return () => { if (!has) { value = f(); has = true; } return value; }; }

// ---- code


const needed = new Map(); // what is to be written: function name -> module and definition
const queue = [];
function functionName(module, name) {
  const whole = mangled(`${module.key}/${name}`);
  if (!needed.has(whole)) {
    const clauses = module.definitions.get(name);
    const readers = clauses.map((c) => { const r = new Reader(c.text); return { patterns: r.patterns(), reader: r, local: c.local }; });
    needed.set(whole, { module, name, readers, arity: readers[0].patterns.length });
    queue.push(whole);
  }
  return whole;
}
function resolveName(module, scope, name) {
  if (scope.has(name)) return { local: scope.get(name) };
  if (special.has(name)) return { variant: name, arity: name === 'suc' || name === 'pos' || name === 'negsuc' ? 1 : 0 };
  if (module.definitions.has(name) && !module.types.has(name)) return { module, name };
  if (module.types.has(name)) return { type: true };
  if (module.constructors.has(name)) return { variant: name, arity: module.constructors.get(name) };
  if (module.names.has(name)) return module.names.get(name)();
  if (kitTypes.has(name)) return { type: true };
  unknown.add(`${module.key}: ${name} isn't imported`);
  return { word: name };
}
function resolvePath(module, scope, parts) {
  let found = resolveName(module, scope, parts[0]);
  let rest = parts.slice(1);
  while (found.alias && rest.length > 0) { found = imported(found.alias, rest[0]); rest = rest.slice(1); }
  return { found, rest };
}
const builtConstructor = { None: 0, Some: 1, Ok: 1, Err: 1 };
function constructorArity(found) {
  if (found.word !== undefined && builtConstructor[found.word] !== undefined) return builtConstructor[found.word];
  return found.variant === undefined ? null : found.arity;
}
const nameOfConstructor = (found) => found.variant === undefined ? found.word : found.variant;
function construct(name, arity, args) {
  if (name === 'true' || name === 'false') return name;
  if (name === '[]') return '[]';
  if (name === 'zero') return '0';
  if (args.length < arity) {
    const more = Array.from({ length: arity - args.length }, (_, i) => `$${i}`);
    return `((${more.join(', ')}) => ${construct(name, arity, [...args, ...more])})`;
  }
  if (name === 'suc') return `(${args[0]} + 1)`;
  if (name === 'pos') return `(${args[0]})`;
  if (name === 'negsuc') return `(-1 - ${args[0]})`;
  return arity === 0 ? `W.nullary(${JSON.stringify(name)})` : `{ t: ${JSON.stringify(name)}, a: [${args.join(', ')}] }`;
}
const operatorCode = {
  '||': (a, b) => `(${a} || ${b})`, '&&': (a, b) => `(${a} && ${b})`, '==': (a, b) => `(${a} === ${b})`, '∷': (a, b) => `[${a}, ...${b}]`, '++': (a, b) => `${a}.concat(${b})`,
  '+': (a, b) => `(${a} + ${b})`, '-': (a, b) => `Math.max(0, ${a} - ${b})`, '+ℤ': (a, b) => `(${a} + ${b})`, '-ℤ': (a, b) => `(${a} - ${b})`, '*': (a, b) => `(${a} * ${b})`,
  '*ℤ': (a, b) => `(${a} * ${b} + 0)`, '/': (a, b) => `Math.floor(${a} / ${b})`, '%': (a, b) => `(${a} % ${b})`, '^': (a, b) => `Math.pow(${a}, ${b})`,
};
const projected = (code, names) => names.reduce((c, n) => /^\d+$/.test(n) ? `${c}[${n}]` : `${c}.${n}`, code);
function code(module, scope, x) {
  const go = (y) => code(module, scope, y);
  if (x.string !== undefined) return JSON.stringify([...x.string].map((c) => c.codePointAt(0)));
  if (x.number !== undefined) return String(x.number);
  if (x.tuple) return `({ ${x.tuple.map((part, i) => `${i}: ${go(part)}`).join(', ')} })`;
  if (x.record) return `({ ${x.base ? `...${go(x.base)}, ` : ''}${x.record.map(([n, e]) => `${n}: ${go(e)}`).join(', ')} })`;
  if (x.project) return projected(go(x.of), x.project);
  if (x.lambda) {
    const inner = new Map(scope);
    for (const n of x.lambda) inner.set(n, `v$${mangled(n)}`);
    return `((${x.lambda.map((n) => `v$${mangled(n)}`).join(', ')}) => (${code(module, inner, x.body)}))`;
  }
  if (x.let) {
    const inner = new Map(scope);
    inner.set(x.let, `v$${mangled(x.let)}`);
    return `((v$${mangled(x.let)}) => (${code(module, inner, x.body)}))(${go(x.value)})`;
  }
  if (x.if) return `(${go(x.if)} ? ${go(x.yes)} : ${go(x.no)})`;
  if (x.operator) return operatorCode[x.operator](go(x.left), go(x.right));
  if (x.path) return applied(module, scope, x.path, []);
  if (x.call) {
    const args = x.args.map(go);
    if (x.call.path) return applied(module, scope, x.call.path, args);
    return `W.apply(${go(x.call)}, [${args.join(', ')}])`;
  }
  throw new Error(`no code for ${JSON.stringify(x)}`);
}
function applied(module, scope, parts, args) {
  const { found, rest } = resolvePath(module, scope, parts);
  const arity = rest.length === 0 ? constructorArity(found) : null;
  if (arity !== null) {
    if (arity === undefined) throw new Error(`${module.key}: no arity of ${parts.join('.')}`);
    return construct(nameOfConstructor(found), arity, args);
  }
  if (found.type) return 'W.type';
  if (found.missing) return `W.missing(${JSON.stringify(found.missing)})`;
  if (found.word !== undefined && rest.length === 0) {
    if (found.word === 'cond' && args.length === 3) return `(${args[0]} ? ${args[1]} : ${args[2]})`;
    if (found.word === 'codes' && args.length === 1) return args[0];
    if (words[found.word] === undefined) unknown.add(`${module.key}: ${found.word}`);
    const word = words[found.word] === undefined ? `W.missing(${JSON.stringify(`${module.key}: ${found.word}`)})` : `W.words[${JSON.stringify(found.word)}]`;
    if (args.length === 0) return word;
    if (words[found.word] && words[found.word].length === args.length) return `${word}(${args.join(', ')})`;
    return `W.apply(${word}, [${args.join(', ')}])`;
  }
  if (found.local !== undefined) {
    const value = projected(found.local, rest);
    return args.length === 0 ? value : `W.apply(${value}, [${args.join(', ')}])`;
  }
  if (found.module) {
    const name = functionName(found.module, found.name);
    const wanted = needed.get(name).arity;
    if (wanted === 0) {
      const value = projected(`${name}()`, rest);
      return args.length === 0 ? value : `W.apply(${value}, [${args.join(', ')}])`;
    }
    if (rest.length > 0) throw new Error(`${parts.join('.')} of a function`);
    if (args.length === wanted) return `${name}(${args.join(', ')})`;
    return args.length === 0 ? name : `W.apply(${name}, [${args.join(', ')}])`;
  }
  throw new Error(`${module.key}: ${parts.join('.')} is ${JSON.stringify(Object.keys(found))}`);
}
// tests and bindings of a pattern
function match(module, scope, pattern, value, tests, bound) {
  if (pattern.tuple) { pattern.tuple.forEach((p, i) => match(module, scope, p, `${value}[${i}]`, tests, bound)); return; }
  if (pattern.head) {
    tests.push(`${value}.length > 0`);
    match(module, scope, pattern.head, `${value}[0]`, tests, bound);
    if (pattern.tail.name !== '_') match(module, scope, pattern.tail, `${value}.slice(1)`, tests, bound);
    return;
  }
  const name = pattern.name;
  if (name === '_') return;
  const last = name.split('.').pop();
  if (!(isConstructorName(last) || special.has(name))) { bound.push([name, value]); return; }
  if (name === '[]') tests.push(`${value}.length === 0`);
  else if (name === 'true' || name === 'false') tests.push(`${value} === ${name}`);
  else if (name === 'zero') tests.push(`${value} === 0`);
  else if (name === 'suc') { tests.push(`${value} > 0`); match(module, scope, pattern.args[0], `(${value} - 1)`, tests, bound); }
  else if (name === 'pos') { tests.push(`${value} >= 0`); match(module, scope, pattern.args[0], value, tests, bound); }
  else if (name === 'negsuc') { tests.push(`${value} < 0`); match(module, scope, pattern.args[0], `(-1 - ${value})`, tests, bound); }
  else {
    const { found } = resolvePath(module, scope, name.split('.'));
    const variant = found.missing || found.type ? null : nameOfConstructor(found);
    if (!variant) throw new Error(`${module.key}: the pattern ${name} is no constructor`);
    tests.push(`${value}.t === ${JSON.stringify(variant)}`);
    pattern.args.forEach((p, i) => match(module, scope, p, `${value}.a[${i}]`, tests, bound));
  }
}
function functionCode(module, name, readers, outer, label) {
  const arity = readers[0].patterns.length;
  const parameters = Array.from({ length: arity }, (_, i) => `p${outer.size}$${i}`);
  const body = readers.map(({ patterns, reader, local }) => {
    const tests = [], bound = [];
    patterns.forEach((p, i) => match(module, outer, p, parameters[i], tests, bound));
    const scope = new Map(outer);
    const lets = bound.map(([n, value], i) => { const own = `v$${mangled(n)}`; scope.set(n, own); return `const ${own} = ${value};`; });
    let locals = '';
    if (local) {
      for (const n of local.definitions.keys()) scope.set(n, `l$${mangled(n)}`);
      for (const [n, clauses] of local.definitions) {
        const inner = clauses.map((c) => { const r = new Reader(c.text); return { patterns: r.patterns(), reader: r, local: c.local }; });
        locals += inner[0].patterns.length === 0
          ? `const l$${mangled(n)} = ${code(module, scope, inner[0].reader.expression())};`
          : functionCode(module, n, inner, scope, `l$${mangled(n)}`);
      }
    }
    const tree = reader.expression();
    if (reader.next !== undefined) throw new Error(`${module.key}/${name}: left over ${JSON.stringify(reader.tokens.slice(reader.at, reader.at + 6))}`);
    const result = `${lets.join(' ')} ${locals} return ${code(module, scope, tree)};`;
    return tests.length > 0 ? `if (${tests.join(' && ')}) { ${result} }` : `{ ${result} }`;
  });
  return `function ${label}(${parameters.join(', ')}) { ${body.join('\n')}\n W.unmatched(${JSON.stringify(`${module.key}/${name}`)}); }\n`;
}

// The functions of these names, `crate/Module/name` each, ready to be called.
function load(wanted) {
  needed.clear();
  const labels = wanted.map((whole) => {
    const at = whole.lastIndexOf('/');
    const [crate, ...name] = whole.slice(0, at).split('/');
    const module = moduleOf(crate, name.join('/'));
    if (!module.definitions.has(whole.slice(at + 1))) throw new Error(`there is no ${whole}`);
    return functionName(module, whole.slice(at + 1));
  });
  let text = '"use strict";\n';
  while (queue.length > 0) {
    const label = queue.shift();
    const { module, name, readers, arity } = needed.get(label);
    try {
      if (arity === 0) text += `let ${label}$value; ` + functionCode(module, name, readers, new Map(), `${label}$make`) +
        `function ${label}() { if (${label}$value === undefined) ${label}$value = ${label}$make(); return ${label}$value; }\n`;
      else text += functionCode(module, name, readers, new Map(), label);
    } catch (error) { throw new Error(`${module.key}/${name}: ${error.message}`); }
  }
  if (unknown.size > 0) throw new Error(`not defined: ${[...unknown].join(', ')}`);
  text += `return { ${wanted.map((whole, i) => `${JSON.stringify(whole)}: ${needed.get(labels[i]).arity === 0 ? `${labels[i]}()` : labels[i]}`).join(', ')} };`;
  if (process.env.WRITE_DEFINITIONS) fs.writeFileSync(process.env.WRITE_DEFINITIONS, text);
  return new Function('W', text)(runtime);
}

const nullaries = new Map();
const runtime = {
  words,
  type: 'a type',
  nullary(name) { if (!nullaries.has(name)) nullaries.set(name, { t: name, a: [] }); return nullaries.get(name); },
  missing(name) { throw new Error(`${name} has no definition here`); },
  unmatched(name) { throw new Error(`no clause of ${name} fits`); },
  apply(f, args) {
    if (f === 'a type') return f;
    while (args.length > 0) {
      if (typeof f !== 'function') throw new Error(`${f} isn't a function`);
      if (args.length < f.length) return partial(f, args);
      const now = f.length === 0 ? args.length : f.length;
      f = f(...args.slice(0, now));
      args = args.slice(now);
    }
    return f;
  },
};
function partial(f, args) {
  const left = f.length - args.length;
  if (left === 1) return (a) => f(...args, a);
  if (left === 2) return (a, b) => f(...args, a, b);
  if (left === 3) return (a, b, c) => f(...args, a, b, c);
  if (left === 4) return (a, b, c, d) => f(...args, a, b, c, d);
  if (left === 5) return (a, b, c, d, e) => f(...args, a, b, c, d, e);
  return (a, b, c, d, e, g) => runtime.apply(f, [...args, a, b, c, d, e, g]);
}
module.exports = { load, apply: runtime.apply };

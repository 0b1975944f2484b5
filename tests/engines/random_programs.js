// Random whole programs of two modules and a fixed third one, the same for each seed. They have scopes, closures, loops, jumps, patterns, iterators that are
// closed, classes and generators inside one another, with yields in every place of an expression, and stay clear of what the profile leaves out and of
// what node does otherwise than the rules: properties are written on objects alone, and numbers stay small.
'use strict';

const helpers = `import { print } from "host";
let depth = 0, steps = 0;
const kept = [];
export function keep(f) { kept.push(f); return kept.length; }
export function plain(v) { return typeof v === "object" && v !== null ? "object" : typeof v === "function" ? "function" : v; }
export function tell(where, e) { print(where, plain(e), e instanceof TypeError, e instanceof ReferenceError); }
export function call(f, ...rest) {
  if (typeof f !== "function" || depth > 3 || steps++ > 60) return "not called";
  depth++;
  try { return f(...rest); } catch (e) { tell("call", e); return 0; } finally { depth--; }
}
export function finish() { for (const f of kept) print(plain(call(f))); }
export function* inner(n) { try { for (let i = 0; i < n; i++) print("sent", plain(yield i)); return n; } finally { print("inner", n); } }
export function closing(n, tag) {
  let i = 0;
  return { [Symbol.iterator]() { return this; }, next() { return { value: i, done: i++ >= n }; }, return() { print("close", tag); return {}; } };
}
export function tag(texts, ...values) { let out = texts.raw.length; for (const v of values) out += plain(v) + texts[0]; return "" + out; }
let turn = 0;
export function drive(g) {
  if (depth > 2 || steps++ > 40) return;
  depth++;
  turn = (turn * 5 + 3) % 16;
  try {
    const o = g(1);
    for (let i = 0, r; i < 14; i++) {
      const kind = (turn + i * 7) % 9;
      r = kind === 7 ? o.throw("t" + i) : kind === 8 ? o.return("r" + i) : o.next(i % 2 ? i : [i, "x"]);
      print("result", plain(r.value), r.done);
      if (r.done) break;
    }
  } catch (e) { tell("drive", e); } finally { depth--; }
}
`;

function made(seed, isMain, hasTags) {
  let state = seed | 0;
  function random(n) {
    state = (state + 0x6D2B79F5) | 0;
    let t = Math.imul(state ^ state >>> 15, 1 | state);
    t = t + Math.imul(t ^ t >>> 7, 61 | t) ^ t;
    return ((t ^ t >>> 14) >>> 0) % n;
  }
  const pick = (list) => list[random(list.length)];
  const choose = (list) => pick(list)();
  let [number, room] = [0, 70];
  const fresh = (front) => front + ++number;

  // `at` has the names in sight with their kinds of value, whether yields may stand here, the labels round it, and what `this` is.
  const named = (at, ...kinds) => at.names.filter((name) => kinds.includes(name.kind));
  const nameOf = (at, otherwise, ...kinds) => { const list = named(at, ...kinds); return list.length > 0 ? pick(list).name : otherwise; };
  const settable = (at, kind) => { const list = at.names.filter((name) => name.kind === kind && name.isSettable); return list.length > 0 ? pick(list).name : null; };
  const inArrow = (at) => ({ ...at, yields: false, labels: [], returns: false });
  const inFunction = (at, ...names) => ({ ...at, yields: false, labels: [], returns: true, self: null, names: at.names.concat(names) });
  const parameter = (name, kind) => ({ name, kind, isSettable: true });

  function anyOf(at, depth) {
    if (depth <= 0) return choose([() => numberOf(at, 0), () => textOf(at, 0), () => nameOf(at, 'undefined', 'any'), () => pick(['null', 'true', 'undefined'])]);
    const value = () => anyOf(at, depth - 1);
    return choose([
      () => numberOf(at, depth), () => numberOf(at, depth), () => textOf(at, depth), () => truthOf(at, depth),
      () => nameOf(at, 'null', 'any', 'number', 'text'),
      () => `(${value()}, ${value()})`, () => `(${truthOf(at, depth - 1)} ? ${value()} : ${value()})`, () => `(${value()} && ${value()})`, () => `(${value()} || ${value()})`,
      () => at.yields ? `(yield ${value()})` : value(), () => at.yields ? `(yield ${value()})` : value(),
      () => at.yields ? `(yield* ${pick([`inner(${random(3)})`, `[${value()}]`, `closing(2, "d")`])})` : value(),
      () => `${pick(['read', 'count'])}(${numberOf(at, depth - 1)})`, () => `keep(() => ${anyOf(inArrow(at), depth - 1)})`, () => `(() => ${anyOf(inArrow(at), depth - 1)})()`,
      () => { const f = nameOf(at, null, 'function'); return f ? `call(${f}, ${value()})` : value(); },
      () => { const [a, b] = [fresh('a'), fresh('b')]; return `(function (${a}, ${b} = ${anyOf(inFunction(at, parameter(a, 'any')), depth - 1)}, ...rest) { return ${pick([a, b, 'rest.length'])}; })(${value()}${pick(['', `, ${value()}`, `, ...[${value()}, 1]`])})`; },
      () => { const f = fresh('f'); return `(function ${f}(k) { return k > 1 ? 7 : plain(${f}(k + 1)) + ${textOf(inFunction(at), depth - 1)}; })(0)`; },
      () => `[${value()}, ${value()}][${pick(['0', '1', '2'])}]`, () => `({ a: ${value()}, ["b" + ${random(2)}]: ${value()}, get c() { return ${anyOf(inFunction(at), 1)}; } }).${pick(['a', 'b0', 'c'])}`,
      () => { const x = settable(at, 'any'); return x ? pick([`(${x} = ${value()})`, `([${x}] = [${value()}])[0]`, `({ a: ${x} = ${value()} } = {}, ${x})`, `([, [${x}]] = "ab", ${x})`]) : value(); },
      () => { const o = nameOf(at, null, 'object'); return o ? pick([`${o}.a`, `${o}[${textOf(at, 0)}]`, `(${o}.a = ${value()})`, `(delete ${o}.${pick(['a', 'b'])})`]) : value(); },
      () => at.self ? 'this.p' : value(), () => at.self === 'derived' ? 'super.m' + pick(['()', '(1)']) : value(),
      () => `new (class { constructor(p) { this.p = ${anyOf({ ...inFunction(at), self: 'class' }, depth - 1)}; } m() { return this.p; } })(${value()}).m()`,
    ]);
  }
  function numberOf(at, depth) {
    if (depth <= 0) return random(3) ? nameOf(at, String(random(5)), 'number') : String(random(9));
    const value = () => numberOf(at, depth - 1);
    const x = settable(at, 'number');
    return choose([
      () => `(${value()} ${pick(['+', '-', '&', '|', '^'])} ${value()})`, () => `(${value()} % ${2 + random(7)})`, () => `(${value()} * ${random(4)})`, () => `(${random(3)} ** ${random(4)})`,
      () => `(- ${value()})`, () => `(${truthOf(at, depth - 1)} ? ${value()} : ${value()})`, () => `(${anyOf(at, depth - 1)}, ${value()})`, () => `[${anyOf(at, depth - 1)}, ...[${value()}]].length`,
      () => `(() => ${numberOf(inArrow(at), depth - 1)})()`, () => x ? pick([`${x}++`, `--${x}`, `(${x} = ${value()})`, `(${x} += ${value()})`, `(${x} -= ${random(5)})`]) : value(),
      () => { const o = nameOf(at, null, 'object'); return o ? pick([`${o}.n++`, `--${o}["n"]`, `(${o}.n += ${value()})`, `${o}.n`]) : value(); },
    ]);
  }
  function textOf(at, depth) {
    if (depth <= 0) return random(2) ? nameOf(at, '"t"', 'text') : pick(['"a"', '"b"', '""', '"length"']);
    const x = settable(at, 'text');
    return choose([
      () => '`' + pick(['', 'x']) + '${' + numberOf(at, depth - 1) + '}-${' + textOf(at, depth - 1) + '}`', () => `(typeof ${nameOf(at, '1', 'any', 'number', 'function', 'object')})`,
      () => `(${textOf(at, depth - 1)} + ${numberOf(at, depth - 1)})`, () => `[${numberOf(at, depth - 1)}, ${textOf(at, depth - 1)}].join()`, () => hasTags ? 'tag`p${' + anyOf(at, depth - 1) + '}q\\n${' + numberOf(at, depth - 1) + '}`' : '"no tag"',
      () => x ? `(${x} = ${textOf(at, depth - 1)})` : '"none"', () => `String(plain(${anyOf(at, depth - 1)}))`, () => `("" + plain(${anyOf(at, depth - 1)}))`,
    ]);
  }
  function truthOf(at, depth) {
    if (depth <= 0) return pick(['true', 'false', `${numberOf(at, 0)} > 2`]);
    return choose([
      () => `(${numberOf(at, depth - 1)} ${pick(['<', '>=', '==='])} ${numberOf(at, depth - 1)})`, () => `!${anyOf(at, depth - 1)}`, () => `(${anyOf(at, depth - 1)} === ${anyOf(at, depth - 1)})`,
      () => { const o = nameOf(at, null, 'object'); return o ? `("${pick(['a', 'b', 'n'])}" in ${o})` : 'true'; },
    ]);
  }

  function initialized(at) {
    const kind = pick(['number', 'text', 'any', 'any', 'object']);
    const value = { number: numberOf, text: textOf, any: anyOf }[kind];
    return { kind, value: value ? value(at, 2) : `{ n: ${numberOf(at, 1)}, b: ${anyOf(at, 1)} }` };
  }
  // Some names of a block are in sight before their declaration, where they have no value yet.
  function block(at, depth, most) {
    const here = { ...at, names: at.names.slice() };
    const out = [];
    const late = [];
    for (let left = random(3); left > 0; left--) {
      const name = { name: fresh('v'), isSettable: true };
      const { kind, value } = initialized(here);
      const word = kind === 'object' ? 'const' : pick(['let', 'let', 'const']);
      // a write to a const or an object's name would change its kind
      here.names.push(Object.assign(name, { kind, isSettable: word === 'let' && kind !== 'object' || word === 'const' && random(6) === 0 && kind !== 'object' }));
      late.push(`${word} ${name.name} = ${value};`);
    }
    for (let left = most || 1 + random(3); left > 0; left--) out.push(statement(here, depth));
    late.forEach((text) => out.splice(random(3) ? 0 : random(out.length + 1), 0, text));
    if (random(4) === 0) {
      const f = fresh('g');
      out.push(`function ${f}(p = ${anyOf(inFunction(here), 1)}) { return ${anyOf(inFunction(here, parameter('p', 'any')), 2)}; }`, `keep(${f});`);
    }
    return out.join('\n');
  }
  const loopOf = (at, ...names) => { const label = fresh('L'); return [label, { ...at, names: at.names.concat(names), labels: at.labels.concat({ label, isLoop: true }) }]; };
  function jump(at) {
    if (at.labels.length === 0) return `print(${numberOf(at, 1)});`;
    const to = pick(at.labels);
    return `if (${truthOf(at, 1)}) ${to.isLoop ? pick(['continue', 'break']) : 'break'} ${to.label};`;
  }
  function statement(at, depth) {
    if (--room < 0) return ';';
    const value = (d = 2) => anyOf(at, d);
    const simple = [
      () => `print(plain(${value()}));`, () => `print(${numberOf(at, 2)}, ${textOf(at, 2)});`, () => { const x = settable(at, 'any'); return x ? `${x} = ${value()};` : `void ${value()};`; },
      () => `keep(() => ${anyOf(inArrow(at), 2)});`, () => { const w = fresh('w'); at.names.push({ name: w, kind: 'any', isSettable: true }); return `var ${w} = ${value()};`; },
      () => jump(at), () => at.returns && random(3) === 0 ? `if (${truthOf(at, 1)}) return ${value(1)};` : `print(plain(${value(1)}));`, () => at.yields ? `yield ${value()};` : `print(${textOf(at, 1)});`,
      () => random(4) === 0 ? `if (${truthOf(at, 1)}) throw ${value(1)};` : `print(${truthOf(at, 2)});`,
    ];
    if (depth <= 0) return choose(simple);
    const body = (inside = at, most) => `{\n${block(inside, depth - 1, most)}\n}`;
    return choose(simple.concat([
      () => body(), () => `if (${truthOf(at, 2)}) ${body()} else if (${value(1)}) ${body()} else ${body()}`,
      () => { const i = fresh('i'); const [label, inside] = loopOf(at, parameter(i, 'number')); return `${label}: for (let ${i} = 0, k${i} = 0; ${i} < ${1 + random(3)} && k${i}++ < 4; ${i}++${at.yields && random(2) ? ', yield 5' : ''}) ${body(inside)}`; },
      () => { const x = fresh('x'); const [label, inside] = loopOf(at, { name: x, kind: 'any', isSettable: false }); return `${label}: for (${pick(['let', 'const', 'var'])} ${x} of ${pick(['[1, 2, 3]', '"ab"', 'inner(3)', 'closing(3, "c")', `[${value(1)}]`])}) ${body(inside)}`; },
      () => { const [x, y] = [fresh('x'), fresh('y')]; const [label, inside] = loopOf(at, parameter(x, 'number'), parameter(y, 'any')); return `${label}: for (let [${x}, { a: ${y} = ${value(1)} }] of [[1, {}], [2, { a: 3 }]]) ${body(inside)}`; },
      () => { const i = fresh('i'); const [label, inside] = loopOf(at); return random(2) ? `{ let ${i} = 0; ${label}: while (${i}++ < 2${at.yields ? ' && (yield 6) !== 0' : ''}) ${body(inside)} }` : `{ let ${i} = 0; ${label}: do ${body(inside)} while (${i}++ < 2); }`; },
      () => { const e = fresh('e'); return `try ${body()} catch (${e}) { tell("catch", ${e}); ${block({ ...at, names: at.names.concat(parameter(e, 'any')) }, depth - 1, 1)} }${random(2) ? ` finally ${body()}` : ''}`; },
      () => { const [e, f] = [fresh('e'), fresh('e')]; return `try { throw { a: ${value(1)}, b: [${value(1)}] }; } catch ({ a: ${e}, b: [${f}, ...r${f}] }) ${body({ ...at, names: at.names.concat(parameter(e, 'any'), parameter(f, 'any')) })}`; },
      () => `try ${body()} finally ${body()}`,
      () => { const label = fresh('L'); return `${label}: ${body({ ...at, labels: at.labels.concat({ label, isLoop: false }) })}`; },
      () => {
        const [label, s] = [fresh('L'), fresh('s')];
        const inside = { ...at, names: at.names.concat({ name: s, kind: 'any', isSettable: true }), labels: at.labels.concat({ label, isLoop: false }) };
        return `${label}: switch (${numberOf(at, 1)} & 3) {\ncase ${numberOf(at, 1)}: ${statement(inside, depth - 1)}\nlet ${s} = ${value(1)}; keep(() => ${s});\ndefault: ${statement(inside, depth - 1)}\ncase ${random(4)}: ${statement(inside, depth - 1)}\n}`;
      },
      () => {
        const [f, p, q] = [fresh('f'), fresh('p'), fresh('q')];
        const inside = inFunction(at, parameter(p, 'any'), parameter(q, 'any'));
        const text = `function ${f}(${p}, ${q} = ${pick([p, anyOf(inFunction(at, parameter(p, 'any')), 1)])}) {\n${block(inside, depth - 1)}\n}`;
        at.names.push({ name: f, kind: 'function' });
        return `${text}\nprint(plain(call(${f}, ${value(1)})));`;
      },
      ...[0, 0, 0].map(() => () => `drive(function* ${fresh('G')}(p) {\n${block({ ...inFunction(at, parameter('p', 'any')), yields: true }, depth - 1, 3)}\n});`),
      () => {
        const [a, b] = [fresh('A'), fresh('B')];
        const inside = (self) => ({ ...inFunction(at), self });
        return `class ${a} { constructor(p) { this.p = p; } m() {\n${block(inside('class'), depth - 2, 2)}\n} static s() { return ${anyOf(inFunction(at), 1)}; } get g() { return ${anyOf(inside('class'), 1)}; } }\n` +
          `class ${b} extends ${a} { constructor(q = ${anyOf(inFunction(at), 1)}) { ${random(3) ? '' : 'try { this; } catch (e) { tell("this", e); } '}super(${anyOf(inFunction(at), 1)}); this.q = ${anyOf(inside('derived'), 1)}; } m() { print(plain(super.m())); return () => ${anyOf(inArrow(inside('derived')), 1)}; } *[Symbol.iterator]() { yield this.q; yield super.g; } }\n` +
          `{ const z = new ${b}(${value(1)}); print(plain(call(z.m)), plain(call(() => z.m())), z instanceof ${a}, plain(${b}.s()), plain(z.g)); keep(z.m()); for (const x of z) print(plain(x)); }`;
      },
    ]));
  }

  const names = isMain ? [{ name: 'shared', kind: 'number' }, { name: 'thing', kind: 'object' }, { name: 'later', kind: 'any' }, { name: 'change', kind: 'function' }] : [{ name: 'shared', kind: 'number', isSettable: true }, { name: 'thing', kind: 'object' }, { name: 'early', kind: 'function' }];
  const at = { names, yields: false, labels: [], returns: false, self: null };
  let text = 'import { print, read, count } from "host";\nimport { keep, plain, tell, call, finish, inner, closing, tag, drive } from "./helpers.js";\n';
  text += isMain ? 'import { shared, thing, change } from "./part.js";\nimport * as part from "./part.js";\nimport later from "./part.js";\n'
    : `import { early } from "./main.js";\nexport let shared = ${random(5)};\nexport const thing = { n: 1 };\n`;
  for (let left = isMain ? 4 : 2; left > 0; left--) text += `try {\n${block(at, isMain ? 4 : 3)}\n} catch (e) { tell("top", e); }\n`;
  text += isMain ? `export function early(p) { return ${anyOf(inFunction(at, parameter('p', 'any')), 1)}; }\nprint(part.shared, plain(part.default), "thing" in part);\nfinish();\n${random(3) ? '' : `throw ${anyOf(at, 1)};\n`}`
    : `export function change(p) { shared = shared + 1; return ${anyOf(inFunction(at, parameter('p', 'any')), 2)}; }\nexport default ${anyOf(at, 2)};\n`;
  return text;
}

// The modules' texts, the hosts' answers, and the engines that are themselves at fault: mujs has no unwritable length, so no template objects, and every
// fourth program has tags.
function randomProgram(seed) {
  const hasTags = seed % 4 === 0;
  const files = { 'main.js': made(seed * 2, true, hasTags), 'part.js': made(seed * 2 + 1, false, hasTags), 'helpers.js': helpers };
  const answers = { read: [3, 'r', true, null, 0], count: [1, { throw: 'counted' }, 2, { throw: 3 }, 4] };
  return { files, answers, without: hasTags ? ['mujs'] : [] };
}

module.exports = { randomProgram };

// A long module as people write them: classes, generators, closures, patterns, templates, loops and exports, with names of their own
// in each section. Usage: node modules_large.js BYTES prints a module of about that many bytes, and never of more.
'use strict';

const sections = [
  (n) => `/** A bounded queue of the ${n}th kind; the oldest item leaves first. */
export class Queue${n} extends Base {
  constructor(limit = ${n % 97 + 1}, ...rest) {
    super(...rest);
    this.limit = limit;
    this.items = [];
  }
  get size() { return this.items.length; }
  static of(...items) {
    const queue = new this(items.length);
    for (const item of items) queue.put(item);
    return queue;
  }
  put(item) {
    if (this.size === this.limit) this.take();
    this.items.push(item);
    return this;
  }
  take() {
    const [first, ...others] = this.items;
    this.items = others;
    return first;
  }
  *[Symbol.iterator]() { yield* this.items; }
}
`,
  (n) => `// walks the tree in order
export function* walk${n}(node, depth = 0) {
  if (node === null) return;
  const { left, right, key: name = 'none', value: { text = "", marks: [mark] = [] } = {} } = node;
  yield* walk${n}(left, depth + 1);
  yield { name, depth, text: \`\${text}:\${mark === undefined ? '-' : mark}\` };
  yield* walk${n}(right, depth + 1);
}
`,
  (n) => `const cache${n} = new Map();
export const lookup${n} = (key, make = () => ({ key, at: ${n} })) => {
  let entry = cache${n}.get(key);
  if (!entry) {
    entry = make(key);
    cache${n}.set(key, entry);
  }
  return entry;
};
`,
  (n) => `function parse${n}(source) {
  const tokens = [];
  let at = 0, line = 1;
  outer: while (at < source.length) {
    const unit = source.charCodeAt(at);
    switch (unit) {
      case 0x0a:
        line++;
      case 0x20:
      case 0x09:
        at += 1;
        continue outer;
      case 0x22: {
        const end = source.indexOf('"', at + 1);
        if (end < 0) throw new SyntaxError(\`line \${line}: a text has no end\`);
        tokens.push({ kind: 'text', value: source.slice(at + 1, end), line });
        at = end + 1;
        break;
      }
      default:
        if (unit >= 0x30 && unit <= 0x39) {
          let value = 0;
          for (; at < source.length && (source.charCodeAt(at) ^ 0x30) < 10; at++) {
            value = value * 10 + (source.charCodeAt(at) - 0x30);
          }
          tokens.push({ kind: 'number', value, line });
        } else {
          tokens.push({ kind: 'mark', value: source[at++], line });
        }
    }
  }
  return tokens;
}
export { parse${n}, parse${n} as read${n} };
`,
  (n) => `register('${n}', settings => {
  settings.each((name, index) => {
    if (typeof name !== 'string' || !(index >= 0)) return void 0;
    try {
      settings[name] = Object.assign({}, settings[name], { index, ['id' + ${n}]: (index + 1) ** 2 });
    } catch (error) {
      console.log(error instanceof TypeError ? error.message : \`other: \${error}\`);
    } finally {
      settings.count = (settings.count || 0) + 1;
    }
  });
  do { settings.count >>>= 1; } while (settings.count > ${n % 13 + 1} && delete settings.last);
  for (var key of Object.keys(settings)) if (key.length % 2 === 0) settings[key] = null, settings.last = key;
});
`,
  (n) => `export let total${n} = 0, names${n} = ['alpha', "beta", \`gamma\`, , 'delta\\u00e9'];
export function add${n}(a, b, { scale = 1, offset: [x, y] = [0, 0] } = {}) {
  total${n} += a < b ? (a + x) * scale : (b - y) / scale;
  [a, b] = [b, a];
  ({ x, y = total${n} } = { x: a, y: b });
  return function inner(depth) {
    return depth <= 0 ? new.target === undefined && x & y | 0x${(n % 4096).toString(16)} : inner.call(this, depth - 1);
  };
}
`,
];

// The module: its imports, sections with numbers of their own, and an export behind them.
function large(bytes) {
  const front = "import Base, { register, host as theHost } from './base.js';\nimport * as console from \"./console.js\";\n";
  const back = 'export default theHost;\n';
  const texts = [front];
  let length = front.length + back.length;
  for (let n = 0; ; n++) {
    const text = sections[n % sections.length](n);
    if (length + text.length > bytes) break;
    texts.push(text);
    length += text.length;
  }
  texts.push(back);
  return texts.join('');
}

module.exports = { large };
if (require.main === module) process.stdout.write(large(+process.argv[2]));

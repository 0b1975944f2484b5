// Calls of the library, played in node and compared with what crates/library_play answers.
//
//   node library.js list SEED REALM COUNT    prints random lists
//   node library.js compare LIST ANSWERS     plays LIST in node and holds ANSWERS to it
//
// crates/library_play/src/main.rt says how lists and answers are written. A line of a list may end in ` => ANSWER`: the
// answer is then that one, whatever node says. A list ends where an answer is an exit, which only such a line or the
// conditions of `leaves` below allow. An operator leaves exactly where `exits` says.
'use strict';
const fs = require('fs');

// ---------------------------------------------------------------- the library of a realm

const generatorFunctionPrototype = Object.getPrototypeOf(function* () {});
const arrayIteratorPrototype = Object.getPrototypeOf([][Symbol.iterator]());
const stringIteratorPrototype = Object.getPrototypeOf(''[Symbol.iterator]());

// By their numbers in the table. An entry with a reason is another than node's, since node goes beyond the editions.
function functionsOf(realm) {
  const isObject = value => Object(value) === value;
  // 5.1 edition, 15.2.3: these take objects alone; later editions convert.
  const onObjects = f => (value, ...rest) => {
    if (!isObject(value)) throw new TypeError();
    return f(value, ...rest);
  };
  // 6th edition, 20.1.3 and 19.3.3: the prototypes are ordinary objects; node's are numbers and truth values, as in 5.1.
  const notOn = (prototype, f) => function (...args) {
    if (this === prototype && realm === 6) throw new TypeError();
    return f.apply(this, args);
  };
  // 19.1.3.6: for the same reason. In the 5.1 edition (15.11.4) an error prototype is an error; node's are ordinary objects.
  const errorPrototypes = [Error.prototype, TypeError.prototype, ReferenceError.prototype, RangeError.prototype];
  const classText = function () {
    if (realm === 6 && (this === Number.prototype || this === Boolean.prototype)) return '[object Object]';
    if (realm === 5 && errorPrototypes.includes(this)) return '[object Error]';
    return Object.prototype.toString.call(this);
  };
  // 22.1.3.17, step 9: the length is written even where nothing is pushed; node then leaves it alone.
  const push = function (...args) {
    const length = args.length === 0 && Array.isArray(this) && Object.getOwnPropertyDescriptor(this, 'length');
    if (length && !length.writable) throw new TypeError();
    return Array.prototype.push.apply(this, args);
  };
  const shared = [
    Object, Array, String, Error, TypeError, ReferenceError, RangeError, Object.create, Array.isArray,
    Object.prototype.hasOwnProperty, classText, Object.prototype.valueOf, Function.prototype.call,
    Function.prototype.apply, Function.prototype.toString, push, Array.prototype.pop,
    Array.prototype.indexOf, Array.prototype.join, Array.prototype.forEach, Array.prototype.toString,
    Array.prototype[Symbol.iterator], Array.prototype.includes, String.prototype.charAt, String.prototype.charCodeAt,
    String.prototype.indexOf, String.prototype.substring, String.prototype.toString, String.prototype[Symbol.iterator],
    notOn(Number.prototype, Number.prototype.toString), notOn(Boolean.prototype, Boolean.prototype.toString),
    Error.prototype.toString, generatorFunctionPrototype.prototype.next, generatorFunctionPrototype.prototype.return,
    generatorFunctionPrototype.prototype.throw, Object.getPrototypeOf(arrayIteratorPrototype)[Symbol.iterator],
    arrayIteratorPrototype.next, stringIteratorPrototype.next, onObjects(Object.defineProperty),
    onObjects(Object.getOwnPropertyDescriptor), onObjects(Object.getPrototypeOf), onObjects(Object.preventExtensions),
    Function.prototype,
  ];
  return shared;
}

// The objects of the library by their names, and the number of each that is a function.
function libraryOf(realm) {
  const prototypes = [
    Object, Function, Array, String, Number, Boolean, Error, TypeError, ReferenceError, RangeError,
  ].map(constructor => constructor.prototype);
  const numbers = [0, 1, 2, 3, 4, 5, 6, 7, 8, 9, 10, 11, 12, 13, 14, 15, 16, 17, 18, 19, 20, 23, 24, 25, 26, 27, 29, 30, 31];
  const more = realm === 6 ? [21, 22, 28, 32, 33, 34, 35, 36, 37] : [38, 39, 40, 41];
  const functions = functionsOf(realm);
  const middle = realm === 6
    ? [generatorFunctionPrototype, generatorFunctionPrototype.prototype, arrayIteratorPrototype, stringIteratorPrototype]
    : [];
  const real = number => (number === 10 ? Object.prototype.toString : number === 29 ? Number.prototype.toString
    : number === 30 ? Boolean.prototype.toString : number === 15 ? Array.prototype.push : number === 38 ? Object.defineProperty
      : number === 39 ? Object.getOwnPropertyDescriptor : number === 40 ? Object.getPrototypeOf
        : number === 41 ? Object.preventExtensions : functions[number]);
  return {
    functions,
    objects: [...prototypes, ...numbers.map(real), ...middle, ...more.map(real)],
  };
}

// ---------------------------------------------------------------- playing a list in node

const unitsOf = text => text.replace(/~([0-9a-f]{4})/g, (_, digits) => String.fromCharCode(parseInt(digits, 16)));

const binaryOperators = Object.fromEntries(
  ['-', '*', '/', '%', '**', '&', '|', '^', '<<', '>>', '>>>', '<', '>', '<=', '>=', '+', '==', 'instanceof']
    .map(operator => [operator, new Function('a', 'b', `return a ${operator} b`)]));
const unaryOperators = Object.fromEntries(
  ['-', '+', '~', '!', 'typeof'].map(operator => [operator, new Function('a', `return ${operator} a`)]));

// The exit of an operator on primitives, or 0, by the words of docs/BUILTINS.md on numbers, with exact results as BigInts.
const exits = {
  toNumber(value) {
    if (value === undefined) return 1;
    if (typeof value !== 'string') return 0;
    const cut = value.replace(/^[\t\v\f \u00a0\ufeff\p{Zs}\n\r\u2028\u2029]+|[\t\v\f \u00a0\ufeff\p{Zs}\n\r\u2028\u2029]+$/gu, '');
    if (!/^([+-]?[0-9]+)?$/.test(cut)) return 2;
    return Number.isSafeInteger(Number(cut)) ? 0 : 1;
  },
  both(a, b) {
    return this.toNumber(a) || this.toNumber(b);
  },
  exact(operator, a, b) {
    const safe = n => (n >= -9007199254740991n && n <= 9007199254740991n ? 0 : 1);
    switch (operator) {
      case '-': return safe(a - b);
      case '+': return safe(a + b);
      case '*': return safe(a * b);
      case '/': return b === 0n || a % b !== 0n ? 1 : 0;
      case '%': return b === 0n ? 1 : 0;
      case '**':
        if (b < 0n) return a === 1n || a === -1n ? 0 : 1;
        return a >= -1n && a <= 1n ? 0 : b > 60n ? 1 : safe(a ** b);
      default: return 0;
    }
  },
  binary(operator, a, b) {
    if (operator === 'instanceof') return 0;
    if (operator === '==') return this.equal(a, b);
    if (typeof a === 'string' && typeof b === 'string' && '< > <= >='.split(' ').includes(operator)) return 0;
    if (operator === '+' && (typeof a === 'string' || typeof b === 'string')) return 0;
    // 12.10.3: these two swap their operands before they convert them.
    if (operator === '>' || operator === '<=') return this.both(b, a);
    return this.both(a, b) || this.exact(operator, BigInt(Number(a)), BigInt(Number(b)));
  },
  equal(a, b) {
    const nothing = value => value === undefined || value === null;
    if (nothing(a) || nothing(b) || typeof a === typeof b) return 0;
    return this.both(a, b);
  },
  unary(operator, a) {
    return operator === '!' || operator === 'typeof' ? 0 : this.toNumber(a);
  },
};

class Thrown {
  constructor(value) {
    this.value = value;
  }
}

class Play {
  constructor(realm) {
    this.realm = realm;
    this.library = libraryOf(realm);
    this.slots = [];
    this.calls = '';
  }

  value(word) {
    const rest = word.slice(1);
    switch (word[0]) {
      case "'": return unitsOf(rest);
      case '#': return Number(rest);
      case '$': return this.slots[Number(rest)];
      case '@': return this.library.objects[Number(rest)];
      case 'n': return null;
      case 't': return true;
      case 'f': return false;
      default: return undefined;
    }
  }

  key(word) {
    return word[0] === "'" ? unitsOf(word.slice(1)) : Symbol.iterator;
  }

  shown(value) {
    if (Object(value) === value) {
      const place = this.library.objects.indexOf(value);
      if (place >= 0) return `@${place}`;
      const slot = this.slots.indexOf(value);
      return slot >= 0 ? `$${slot}` : 'an object';
    }
    if (typeof value !== 'string') return Object.is(value, -0) ? '0' : String(value);
    const unit = at => {
      const one = value[at];
      return /[A-Za-z0-9[\] :,.-]/.test(one) ? one : `\\u${value.charCodeAt(at).toString(16).padStart(4, '0')}`;
    };
    return `"${Array.from({ length: value.length }, (_, at) => unit(at)).join('')}"`;
  }

  items(list, words) {
    words.forEach((word, at) => {
      if (word !== '_') list[at] = this.value(word);
    });
    return list;
  }

  function([what, word, second]) {
    const play = this;
    const value = what === 'gives' || what === 'throws' ? this.value(word) : undefined;
    const turns = what === 'turns' ? [this.value(word), this.value(second)] : [];
    const made = {
      called(...args) {
        play.calls += `${[`${play.shown(made)} on ${play.shown(this)}`, ...args.map(arg => play.shown(arg))].join(', ')}; `;
        switch (what) {
          case 'gives': return value;
          case 'throws': throw new Thrown(value);
          case 'turns': turns.push(turns.shift()); return turns[1];
          case 'receiver': return this;
          default: return args[Number(word)];
        }
      },
    }.called;
    delete made.name;
    delete made.length;
    return made;
  }

  outcome([operation, ...words]) {
    const define = (object, key, descriptor) => {
      try {
        return Reflect.defineProperty(object, key, { enumerable: !(Array.isArray(object) && key === 'length'), ...descriptor });
      } catch (error) {
        return false;
      }
    };
    switch (operation) {
      case 'array': {
        const list = [];
        list.length = words.length;
        while (list.length > 0 && words[list.length - 1] === '_') list.length -= 1;
        return this.items(list, words);
      }
      case 'arguments': {
        const items = words.map(word => (word === '_' ? undefined : this.value(word)));
        const made = (function () { return arguments; })(...items);
        words.forEach((word, at) => word === '_' && delete made[at]);
        return made;
      }
      case 'function': return this.function(words);
      case 'define': {
        const [holder, key, value, writable, configurable] = words;
        return define(this.value(holder), this.key(key),
          { value: this.value(value), writable: writable === '1', configurable: configurable === '1' });
      }
      case 'accessor': {
        const [holder, key, get, set, configurable] = words;
        const functionOf = word => (Object(this.value(word)) === this.value(word) ? this.value(word) : undefined);
        return define(this.value(holder), this.key(key),
          { get: functionOf(get), set: functionOf(set), configurable: configurable === '1' });
      }
      // Nothing in node is like these; the lines that use them say what is wanted.
      case 'namespace': return Object.create(null);
      case 'record': case 'hosts': case 'length': return undefined;
      case 'put': this.value(words[0])[this.key(words[1])] = this.value(words[2]); return undefined;
      case 'prim': case 'seen': return this.value(words[0]);
      case 'prims': return words.length;
      case 'error': return new globalThis[words[0]]();
      case 'prototype': return Object(this.value(words[0])) === this.value(words[0]) ? this.value(words[0]) : Object.prototype;
      case 'global': return globalThis[words[0]];
      case 'seal': Object.preventExtensions(this.value(words[0])); return undefined;
      case 'read': return this.value(words[0])[this.key(words[1])];
      case 'binary': return binaryOperators[words[0]](this.value(words[1]), this.value(words[2]));
      case 'unary': return unaryOperators[words[0]](this.value(words[1]));
      case 'write': this.value(words[0])[this.key(words[1])] = this.value(words[2]); return undefined;
      case 'delete': delete this.value(words[0])[this.key(words[1])]; return undefined;
      case 'call': return this.library.functions[Number(words[0])].apply(this.value(words[1]), words.slice(2).map(word => this.value(word)));
      default: return Object.create(Object(this.value(words[0])) === this.value(words[0]) ? this.value(words[0]) : null);
    }
  }

  answer(line) {
    this.calls = '';
    try {
      const value = this.outcome(line.split(' '));
      this.slots.push(value);
      return this.calls + this.shown(value);
    } catch (error) {
      if (error instanceof Thrown) return `${this.calls}throws ${this.shown(error.value)}`;
      return `${this.calls}throws ${error.name}`;
    }
  }

  // Whether a random line may leave at this exit. What a conversion of an object meets isn't followed: it may leave at the
  // exits of conversions, at X8 and X9 where the object is or holds a function or an iterator, and at X11. The rows of
  // crates/library_play/stdin say where each exit comes.
  leaves(line, exit) {
    const [operation, ...words] = line.split(' ');
    if (operation === 'binary') return exit === exits.binary(words[0], this.value(words[1]), this.value(words[2]));
    if (operation === 'unary') return exit === exits.unary(words[0], this.value(words[1]));
    if (operation === 'read' && exit === 7) return this.leftOut(this.value(words[0]), words[1]);
    if (operation === 'write' || operation === 'delete' || operation === 'read') {
      if (exit === 4) return typeof this.value(words[0]) === 'function' && /^'(name|length)$/.test(words[1]);
    }
    if (operation === 'write') {
      return (exit === 7 && words[0][0] === '@') || (exit === 7 && this.leftOut(this.value(words[0]), words[1]))
        || (exit < 3 && words[1] === "'length" && exit === exits.toNumber(this.value(words[2])));
    }
    if (operation === 'delete') return exit === 7 && (words[0][0] === '@' || this.leftOut(this.value(words[0]), words[1]));
    if (operation !== 'call') return false;
    const number = Number(words[0]);
    const [receiver, ...args] = words.slice(1);
    const isObject = word => Object(this.value(word)) === this.value(word);
    const isList = word => Array.isArray(this.value(word)) || this.isArgumentsList(this.value(word));
    const first = args[0] || 'u';
    const second = args[1] || 'u';
    const converts = [2, 3, 4, 5, 6, 9, 15, 16, 17, 18, 20, 22, 23, 24, 25, 26, 28, 31, 38, 39].includes(number);
    const converted = converts && [receiver, ...args].some(word => isObject(word) || this.value(word) === undefined || typeof this.value(word) === 'string');
    switch (exit) {
      case 1: case 2: return converted;
      case 3: return [9, 38, 39].includes(number) && /^'(@@|__proto__)|^[$@]/.test(number === 9 ? first : second);
      case 4: return [9, 31, 38, 39].includes(number) && [receiver, first].some(word => typeof this.value(word) === 'function');
      case 7: return number < 2 || (number === 7 && second !== 'u') || ([29, 30].includes(number) && !['u', '#10'].includes(first))
        || ([15, 16].includes(number) && receiver[0] === '@') || ([38, 41].includes(number) && first[0] === '@');
      case 8: case 9: return number === 14 || (number === 10 && isObject(receiver)) || (number === 11 && !isObject(receiver)) || converted
        || [12, 13, 19].includes(number);
      case 11: return number === 13 ? !isList(second) && !['u', 'n'].includes(second)
        : converted || ([15, 16, 17, 18, 19, 20, 22].includes(number) && !isList(receiver));
      default: return false;
    }
  }

  isArgumentsList(value) {
    if (Object.prototype.toString.call(value) !== '[object Arguments]') return false;
    const length = Object.getOwnPropertyDescriptor(value, 'length');
    return length !== undefined && typeof length.value === 'number' && length.value >= 0 && length.value <= 4294967295;
  }

  // The exit at which an operator has to leave.
  mustLeave(line) {
    const [operation, ...words] = line.split(' ');
    const exit = operation === 'binary' ? exits.binary(words[0], this.value(words[1]), this.value(words[2]))
      : operation === 'unary' ? exits.unary(words[0], this.value(words[1])) : 0;
    return exit === 0 ? '' : `leaves ${exit}`;
  }

  // Names that are known and left out, among those that random lists read.
  leftOut(value, key) {
    const isPrimitive = Object(value) !== value;
    return (key === "'valueOf" && isPrimitive) || (key === "'length" && typeof value === 'function');
  }
}

function compare(list, answers) {
  const counts = { lists: 0, lines: 0, exits: {} };
  let play = null;
  let over = true;
  const wrong = [];
  list.forEach((whole, at) => {
    const [line, expected] = whole.split(' => ');
    if (line.startsWith('realm ')) {
      play = new Play(Number(line[6]));
      counts.lists += 1;
      over = false;
      return;
    }
    if (over) return;
    const got = answers[at];
    const exit = /leaves (\d+)$/.exec(got);
    if (exit) over = true;
    if (exit) counts.exits[exit[1]] = (counts.exits[exit[1]] || 0) + 1;
    counts.lines += 1;
    const before = play.slots.length;
    const wanted = expected !== undefined ? expected : exit && play.leaves(line, Number(exit[1])) ? got : play.mustLeave(line) || play.answer(line);
    // The slots go on as they do in the answers. Node's own library isn't changed.
    if (expected !== undefined && !exit) {
      if (!/^(call (38|41) u|write|delete|define|accessor|seal) @/.test(line)) play.answer(line);
      play.slots.length = before + (/(^|; )(throws |stuck)/.test(got) ? 0 : 1);
    }
    if (got !== wanted) {
      wrong.push(`line ${at + 1}: ${whole}\n  got ${got}, wanted ${wanted}`);
      over = true;
    }
  });
  return { counts, wrong };
}

// ---------------------------------------------------------------- random lists

function lists(seed, realm, count) {
  // A linear congruential generator, so that a seed always gives the same lists.
  let state = seed >>> 0;
  const below = n => {
    state = (Math.imul(state, 1664525) + 1013904223) >>> 0;
    return Math.floor((state / 4294967296) * n);
  };
  const pick = list => list[below(list.length)];
  const texts = ["'", "'a", "'ab", "'aab", "'banana", "'~d83d~de00", "'x~d83d", "'~de00~d83dy", "'12", "'1", "'-1", "'~0020~00312", "'null", "'length", "'k"];
  const numbers = ['#0', '#1', '#2', '#-1', '#3', '#7', '#4294967296', '#-9007199254740991'];
  const plain = () => pick([() => 'u', () => 'n', () => 't', () => 'f', () => pick(numbers), () => pick(numbers), () => pick(texts), () => pick(texts)])();
  const keys = ["'0", "'1", "'2", "'k", "'length", "'toString", "'valueOf", "'join", "'message", "'name", "'value", "'writable", "'get", "'configurable"];
  const result = [];
  for (let n = 0; n < count; n += 1) {
    result.push(`realm ${realm}`);
    const kinds = [];
    const emit = (line, kind) => { result.push(line); kinds.push(kind); };
    // Slots whose kinds are known: each of these lines answers a value.
    const slot = (...wanted) => {
      const fitting = kinds.map((kind, at) => [kind, at]).filter(([kind]) => wanted.includes(kind));
      return fitting.length > 0 ? `$${pick(fitting)[1]}` : plain();
    };
    const any = () => (below(3) === 0 ? slot('array', 'arguments', 'object', 'function', 'error', 'iterator') : plain());
    emit(`function ${pick([`gives ${plain()}`, `gives ${pick(texts)}`, `gives ${pick(numbers)}`, `argument ${below(3)}`])}`, 'function');
    emit(...pick([[`function gives ${plain()}`, 'function'], [`function throws ${plain()}`, 'function'], ['function receiver', 'self']]));
    // Nothing comes to hold itself, since toString of such a list never ends by the editions; node ends it by a rule of its own.
    const called = () => slot('function', 'self');
    emit(`array ${Array.from({ length: below(5) }, () => (below(5) === 0 ? '_' : plain())).join(' ')} ${plain()}`.replace(/ +/g, ' '), 'array');
    emit(`array ${Array.from({ length: below(3) }, any).join(' ')} ${plain()}`.replace(/ +/g, ' '), 'array');
    emit(`arguments ${Array.from({ length: below(3) }, plain).join(' ')} ${plain()}`.replace(/ +/g, ' '), 'arguments');
    emit(`object ${pick(['@0', '@0', 'n', '$2', '$4'])}`, 'object');
    const target = slot('object', 'array', 'array', 'arguments');
    const key = pick(keys);
    // A definition outside the library takes numbers alone as an array's length.
    const value = key === "'length" ? () => pick(numbers) : pick([plain, () => slot('function'), () => slot('function')]);
    if (below(2) === 0) emit(`define ${target} ${key} ${value()} ${below(5) ? 1 : 0} ${below(5) ? 1 : 0}`, 'truth');
    else emit(`accessor ${target} ${pick(keys)} ${slot('function')} ${pick(['u', slot('function')])} ${below(5) ? 1 : 0}`, 'truth');
    emit(`define $5 'toString ${called()} 1 1`, 'truth');
    if (below(2) === 0) emit(`define $5 'valueOf ${called()} 1 1`, 'truth');
    if (below(4) === 0) emit(`seal ${slot('object', 'array', 'arguments')}`, 'nothing');
    // The last line may end the list, since its answer may be a throw, which takes no slot.
    const calls = [
      () => `call 2 u ${any()}`, () => `call ${pick([3, 4, 5, 6])} u ${any()}`, () => `call 7 u ${pick([slot('object', 'array'), 'n', plain()])}`,
      () => `call 8 u ${any()}`, () => `call 9 ${any()} ${pick([...keys, any()])}`, () => `call 10 ${any()}`,
      () => `call 11 ${slot('object', 'array', 'function')}`, () => `call 12 ${called()} ${any()} ${any()} ${any()}`,
      () => `call 13 ${called()} ${any()} ${slot('array', 'arguments')}`, () => `call 15 ${slot('array', 'array', 'arguments')} ${plain()} ${pick([plain(), slot('function', 'object')])}`,
      () => `call 15 ${slot('array', 'arguments')}`, () => `call 16 ${slot('array', 'arguments')}`,
      () => `call 17 ${slot('array', 'arguments')} ${any()} ${any()}`, () => `call 17 ${slot('array')} ${plain()}`,
      () => `call 18 ${slot('array', 'arguments')} ${any()}`, () => `call 18 ${slot('array')}`,
      () => `call 19 ${slot('array', 'arguments')} ${called()} ${any()}`, () => `call 20 ${slot('array', 'arguments')}`,
      () => `call 23 ${any()} ${any()}`, () => `call 24 ${pick(texts)} ${pick(["#0", "#1", "#2", slot('object')])}`,
      () => `call 25 ${any()} ${any()} ${any()}`, () => `call 26 ${pick([pick(texts), any()])} ${any()} ${any()}`,
      () => `call 27 ${pick([pick(texts), any()])}`, () => `call 29 ${pick([pick(numbers), any()])} ${pick(['u', '#10'])}`,
      () => `call 30 ${pick(['t', 'f', any()])}`, () => `call 31 ${pick([slot('error', 'object'), any()])}`, () => 'call 42 u',
      () => `read ${any()} ${pick(keys.filter(key => !["'name"].includes(key)))}`,
    ];
    const sixth = [
      () => `call 21 ${any()}`, () => `call 22 ${slot('array', 'arguments')} ${any()} ${any()}`, () => `call 28 ${any()}`,
      () => `call 35 ${any()}`, () => `call 36 ${any()}`, () => `call 37 ${any()}`,
    ];
    const fifth = [
      () => `call 38 u ${slot('object', 'array', 'arguments')} ${pick([...keys, any()])} ${any()}`, () => `call 39 u ${any()} ${pick(keys)}`,
      () => `call 40 u ${any()}`, () => `call 41 u ${any()}`,
    ];
    const pool = [...calls, ...(realm === 6 ? [...sixth, ...sixth] : [...fifth, ...fifth])];
    // Descriptors and iterators that calls make use of.
    if (realm === 5) {
      emit('object @0', 'descriptor');
      const descriptor = kinds.length - 1;
      for (const field of ["'value", "'writable", "'configurable", "'get", "'set"]) {
        if (below(3) === 0) emit(`define $${descriptor} ${field} ${field === "'get" || field === "'set" ? pick(['u', slot('function'), plain()]) : plain()} 1 1`, 'truth');
      }
      emit(`define $${descriptor} 'k t 1 1`, 'truth');
      result.push(`call 38 u ${slot('object', 'array', 'arguments')} ${pick(keys)} $${descriptor}`);
      result.push(`call 39 u $2 ${pick(keys)}`);
    } else {
      const over = pick([() => `call 21 ${slot('array', 'arguments')}`, () => `call 28 ${pick(texts)}`]);
      const made = over();
      emit(made, 'iterator');
      const iterator = kinds.length - 1;
      const next = made.startsWith('call 21') ? 36 : 37;
      for (let turn = 0; turn < 3; turn += 1) {
        result.push(`call ${next} $${iterator}`);
        if (below(2) === 0) break;
        result.push(`read $${iterator + 1 + 2 * turn} ${pick(["'value", "'done"])}`);
      }
    }
    const values = [slot('array', 'object', 'arguments'), slot('array', 'object', 'arguments'), pick(texts), pick(numbers)];
    result.push(`write ${pick(values)} ${pick(keys)} ${plain()}`);
    result.push(`read ${slot('array', 'object', 'arguments')} ${pick(keys.filter(name => name !== "'name"))}`);
    result.push(`delete ${slot('array', 'object', 'arguments')} ${pick(keys)}`);
    for (let turn = 0; turn < 4; turn += 1) result.push(pick(pool)());
    for (let turn = 0; turn < 2; turn += 1) {
      if (below(4) === 0) result.push(`unary ${pick(Object.keys(unaryOperators).filter(name => name !== '+'))} ${plain()}`);
      else result.push(`binary ${pick(Object.keys(binaryOperators).filter(name => name !== 'instanceof'))} ${plain()} ${plain()}`);
    }
  }
  return result;
}

const [what, ...args] = process.argv.slice(2);
if (what === 'list') {
  console.log(lists(Number(args[0]), Number(args[1]), Number(args[2])).join('\n'));
} else {
  const linesOf = path => fs.readFileSync(path, 'utf8').trimEnd().split('\n');
  const list = linesOf(args[0]).filter(line => !line.startsWith('#'));
  const { counts, wrong } = compare(list, linesOf(args[1]));
  for (const text of wrong.slice(0, 20)) console.error(text);
  const exits = Object.entries(counts.exits).map(([exit, n]) => `X${exit} ${n}`).join(', ');
  console.log(`${counts.lists} lists, ${counts.lines} lines; exits: ${exits}; ${wrong.length} wrong`);
  process.exitCode = wrong.length > 0 ? 1 : 0;
}

// Makes lists of operations on an object and an array, plays them on node's own objects, and prints either the
// list or the answers. Usage: node objects.js list|answers SEED COUNT
'use strict';

const [what, seed, count] = [process.argv[2], Number(process.argv[3]), Number(process.argv[4])];

// A linear congruential generator, so that a seed always gives the same list.
let state = seed >>> 0;
function below(n) {
  state = (Math.imul(state, 1664525) + 1013904223) >>> 0;
  return Math.floor((state / 4294967296) * n);
}
const pick = list => list[below(list.length)];

const keys = ['0', '1', '2', '3', '7', '12', '01', 'k', '*', 'length', '4294967294', '4294967295'];
const numbers = ['0', '1', '2', '3', '5', '4294967295'];
const lengths = ['0', '1', '2', '3', '5', '9', '-1', '4294967295', '4294967296'];
// Marks are mostly 1, so that a list doesn't freeze at once.
const mark = () => (below(6) === 0 ? '0' : '1');

function operation() {
  const target = below(4) === 0 ? 'o' : 'a';
  const key = pick(keys);
  switch (below(16)) {
    case 0: case 1: case 2: case 3:
      return ['d', target, key, key === 'length' ? pick(lengths) : pick(numbers), mark(), key === 'length' ? '0' : mark()];
    case 4: return ['g', target, key, mark()];
    case 5: case 6: return ['x', target, key];
    case 7: return ['l', 'a', pick(lengths)];
    case 8: return below(12) === 0 ? ['p', target] : ['r', target, key];
    case 9: return ['f', target, key];
    case 10: return ['s', target, key, mark()];
    case 11: case 12: return ['w', target, key, pick(numbers)];
    case 13: return ['v', target, key, pick(numbers)];
    case 14: return below(4) === 0 ? ['e', target] : ['h', target, key];
    default: return ['r', target, key];
  }
}

function answers(lines) {
  const objects = { o: Object.create(null), a: Object.setPrototypeOf([], null) };
  const children = { o: Object.create(objects.o), a: Object.create(objects.a) };
  const getter = function () {};
  let isSet = false;
  const setter = () => { isSet = true; };
  const keyOf = word => (word === '*' ? Symbol.iterator : word);
  // Reflect.defineProperty answers false for a refusal; only a bad length throws.
  const define = (target, key, descriptor) => {
    const enumerable = !(target === 'a' && key === 'length');
    try {
      return Reflect.defineProperty(objects[target], key, { ...descriptor, enumerable }) ? 'ok' : 'refused';
    } catch (error) {
      return error instanceof RangeError ? 'range' : 'thrown';
    }
  };
  const shown = descriptor => {
    if (descriptor === undefined) return 'none';
    if ('value' in descriptor) return `plain ${descriptor.value} ${descriptor.writable} ${descriptor.configurable}`;
    return `${descriptor.get ? 'getter' : 'setter'} ${descriptor.configurable}`;
  };
  const found = (object, key) => {
    for (let at = object; at !== null; at = Object.getPrototypeOf(at)) {
      const descriptor = Object.getOwnPropertyDescriptor(at, key);
      if (descriptor !== undefined) return descriptor;
    }
    return undefined;
  };
  // A write to the object below, whose setter isn't called in the play.
  const write = (target, key, number, receiver) => {
    isSet = false;
    const done = Reflect.set(children[target], key, number, receiver);
    return isSet ? 'setter' : done ? 'ok' : 'refused';
  };
  const holder = (target, key) => {
    if (Object.prototype.hasOwnProperty.call(children[target], key)) return 'below';
    return found(objects[target], key) === undefined ? 'none' : 'above';
  };
  return lines.map(([name, target, word, first, second, third]) => {
    const key = keyOf(word);
    switch (name) {
      case 'd': return define(target, key, { value: Number(first), writable: second === '1', configurable: third === '1' });
      case 'g': return define(target, key, { get: getter, set: undefined, configurable: first === '1' });
      case 'l': {
        const { writable } = Object.getOwnPropertyDescriptor(objects.a, 'length');
        return define('a', 'length', { value: Number(key), writable, configurable: false });
      }
      case 'x': {
        const there = Object.prototype.hasOwnProperty.call(objects[target], key);
        return Reflect.deleteProperty(objects[target], key) ? String(there) : 'refused';
      }
      case 's': return define(target, key, { get: undefined, set: setter, configurable: first === '1' });
      case 'w': return write(target, key, Number(first), children[target]);
      case 'v': return write(target, key, Number(first), 1);
      case 'e': return String(Object.isExtensible(objects[target]));
      case 'h': return holder(target, key);
      case 'p': Object.preventExtensions(objects[target]); return 'ok';
      case 'f': return shown(found(children[target], key));
      default: return shown(Object.getOwnPropertyDescriptor(objects[target], key));
    }
  });
}

const lines = Array.from({ length: count }, operation);
const output = what === 'list' ? lines.map(line => line.join(' ')) : answers(lines);
console.log(output.join('\n'));

// Cuts a fresh realm of node down to the library that docs/BUILTINS.md keeps for scripts. `note` hears each look-up of a name that is left out and
// each change of a built-in object, of which nothing is said of a script; a look-up throws then.
function cutRealm(global, note) {
  'use strict';
  var descriptor = Object.getOwnPropertyDescriptor, define = Object.defineProperty, names = Object.getOwnPropertyNames;
  var symbols = Object.getOwnPropertySymbols, seal = Object.preventExtensions;
  var arrays = Array.prototype, kept = [
    ['Object', Object, 'create prototype defineProperty getOwnPropertyDescriptor getPrototypeOf preventExtensions'],
    ['Array', Array, 'isArray prototype'],
    ['String', String, 'prototype'],
    ['Error', Error, 'prototype'],
    ['TypeError', TypeError, 'prototype'],
    ['ReferenceError', ReferenceError, 'prototype'],
    ['RangeError', RangeError, 'prototype'],
    ['Object.prototype', Object.prototype, 'hasOwnProperty toString valueOf'],
    ['Function.prototype', Function.prototype, 'call apply toString'],
    ['Array.prototype', arrays, 'length push pop indexOf join forEach toString'],
    ['String.prototype', String.prototype, 'length charAt charCodeAt indexOf substring toString'],
    ['Number.prototype', Number.prototype, 'toString'],
    ['Boolean.prototype', Boolean.prototype, 'toString'],
    ['Error.prototype', Error.prototype, 'name message toString'],
    ['TypeError.prototype', TypeError.prototype, 'name message'],
    ['ReferenceError.prototype', ReferenceError.prototype, 'name message'],
    ['RangeError.prototype', RangeError.prototype, 'name message']
  ];
  var globals = ['undefined', 'Object', 'Array', 'String', 'Error', 'TypeError', 'ReferenceError', 'RangeError'];
  function leave(name) {
    note(name);
    throw 'left at ' + name;
  }
  function leaveOut(holder, title, key) {
    var found = descriptor(holder, key);
    if (!found.configurable) return;
    // names that the 5.1 edition lacks
    if (/^(name|caller|arguments|includes)$|^__/.test(key)) {
      delete holder[key];
      return;
    }
    define(holder, key, {
      get: function () { leave(title + '.' + key); },
      // what only inherits gets a property of its own, as it does below a plain one
      set: function (value) {
        if (this === holder) leave(title + '.' + key);
        define(this, key, { value: value, writable: true, enumerable: true, configurable: true });
      },
      configurable: true
    });
  }
  function cut(title, holder, words) {
    names(holder).forEach(function (key) { if (words.indexOf(key) < 0) leaveOut(holder, title, key); });
    symbols(holder).forEach(function (key) { if (descriptor(holder, key).configurable) delete holder[key]; });
  }
  var rows = [];
  kept.forEach(function (row) {
    var words = row[2].split(' ');
    rows.push([row[0], row[1], words]);
    words.forEach(function (key) {
      var value = descriptor(row[1], key).value;
      if (typeof value === 'function') rows.push([row[0] + '.' + key, value, []]);
    });
  });
  names(global).forEach(function (key) { if (globals.indexOf(key) < 0 && descriptor(global, key).configurable) delete global[key]; });
  rows.forEach(function (row) {
    cut(row[0], row[1], row[2]);
    if (row[1] !== arrays) seal(row[1]);
  });
  var count = names(arrays).length;
  // what a script may add is `includes`
  return function () {
    if (names(arrays).length > count + (descriptor(arrays, 'includes') ? 1 : 0)) note('Array.prototype');
  };
}

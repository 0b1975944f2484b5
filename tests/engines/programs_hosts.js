// On top of first_hosts.js, in ES5 for every engine: hosts that refuse objects, and the line of a program's ending. `kinds` has the
// kinds of Error of the program's realm by name.
function programHosts(say, answers, names, kinds) {
  var made = makeHosts(say, answers, names), hosts = {}, at;
  function isObject(value) {
    return typeof value === 'function' || (typeof value === 'object' && value !== null);
  }
  function guarded(host) {
    return function () {
      var at;
      for (at = 0; at < arguments.length; at++) if (isObject(arguments[at])) throw new kinds.TypeError();
      return host.apply(undefined, arguments);
    };
  }
  function ending(thrown) {
    var parent, name;
    if (!isObject(thrown)) return 'threw ' + made.show(thrown);
    for (parent = Object.getPrototypeOf(thrown); parent; parent = Object.getPrototypeOf(parent)) {
      for (name in kinds) if (parent === kinds[name].prototype) return 'threw ' + name;
    }
    return 'threw Object';
  }
  for (at = 0; at < names.length; at++) hosts[names[at]] = guarded(made.hosts[names[at]]);
  return { hosts: hosts, ending: ending };
}

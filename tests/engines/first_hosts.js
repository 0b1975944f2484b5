// The hosts of the checks, in ES5 for every engine: each call prints its event, and takes its host's next answer.
// `say` prints a line, `answers` has a list for each host that gives others than undefined.
function makeHosts(say, answers, names) {
  function unit(text, at) {
    var code = text.charCodeAt(at);
    if (code === 34) return '\\"';
    if (code === 92) return '\\\\';
    if (code >= 32 && code <= 126) return text.charAt(at);
    return '\\u' + ('000' + code.toString(16)).slice(-4);
  }
  function show(value) {
    var shown = '', at;
    if (typeof value !== 'string') return String(value);
    for (at = 0; at < value.length; at++) shown += unit(value, at);
    return '"' + shown + '"';
  }
  function next(name) {
    var answer = answers[name] && answers[name].length ? answers[name].shift() : undefined;
    if (answer !== null && typeof answer === 'object') {
      if ('throw' in answer) throw answer['throw'];
      return undefined;
    }
    return answer;
  }
  function host(name) {
    return function () {
      var shown = [], at;
      for (at = 0; at < arguments.length; at++) shown.push(show(arguments[at]));
      say(name + '(' + shown.join(', ') + ')');
      return next(name);
    };
  }
  var hosts = {}, at;
  for (at = 0; at < names.length; at++) hosts[names[at]] = host(names[at]);
  return { hosts: hosts, show: show };
}

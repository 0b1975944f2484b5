// Random cores that are lawful: what may stand where is what core_ast/specs/Lawful.antt says. The labels of a function differ.
'use strict';
const variant = (t, ...a) => ({ t, a });
const none = variant('None');
const some = (x) => variant('Some', x);
const units = (text) => [...text].map((c) => c.charCodeAt(0));
const operands = {
  CheckReady: 1, RefuseConst: 0, ToText: 1, IterStart: 2, IterStep: 1, IterValue: 1, IterClose: 2, RestList: 1, SpreadList: 3, Construct: 2, NamespaceMake: 1, ClassMake: 3, ClassGuard: 0, NewTarget: 0,
  SuperConstruct: 1, ThisBind: 1, SuperGet: 2, MethodPut: 4, AccessorPut: 4, ArgumentsPut: 0, GeneratorMake: 0, GeneratorResume: 3, DelegateStep: 3, Power: 2, TemplateObject: 2, IncludesPut: 0,
};
const primitives = (least, most) => Object.keys(operands).filter((name) => operands[name] >= least && operands[name] <= most);

function randomCore(start) {
  let seed = Math.imul(start, 7919) >>> 0, labels = 0, places = 0;
  const below = (n) => { seed = (Math.imul(seed, 1103515245) + 12345) >>> 0; return Math.floor((seed >>> 8) / 16777216 * n); };
  const pick = (list) => list[below(list.length)];
  const times = (n, f) => Array.from({ length: n }, f);
  const perhaps = (f) => below(2) ? some(f()) : none;
  const hints = [], functions = [], unheld = [];
  const name = () => { hints.push(below(3) ? some(units(pick(['a', 'b', 'x']))) : none); return { 0: hints.length - 1 }; };
  const drawn = () => ({ 0: below(hints.length) });
  const scoped = (n) => times(n, () => ({ var: name(), shared: below(2) === 0, mutable: true }));
  const key = () => pick([variant('WordKey', units(`w${below(3)}`)), variant('TextKey', units('t')), variant('IntegerKey', below(9))]);
  const constant = () => pick([variant('Undefined'), variant('Null'), variant('Truth', true), variant('Integer', below(9)), variant('Text', units('s'))]);

  function head(round) {
    if (unheld.length > 0 && below(3) === 0) return [variant('Function', { 0: unheld.pop() }), 'plain'];
    return pick([
      () => [variant('Constant', constant()), 'plain'], () => [variant('Variable', drawn()), 'named'], () => [variant('Variable', drawn()), 'named'], () => [variant('Host', below(3)), 'hosted'],
      () => [variant(pick(['Empty', 'This', 'ArrayList', 'ObjectList', 'ArgumentList'])), 'plain'], () => [variant('Global', variant('ObjectGlobal')), 'plain'],
      () => [variant('Primitive', variant(pick(primitives(0, 0)))), 'plain'], () => [variant('Copy', [drawn(), drawn()]), 'plain'],
    ])();
  }
  function expression(round, depth) {
    const links = [];
    let [begin, current] = head(round), isMarked = false;
    const place = () => isMarked || below(2) ? none : (isMarked = true, some({ module: 0, at: places++ }));
    for (let n = below(3); n > 0 || current === 'hosted'; n--) {
      const [link, after] = linkBehind(current, round, depth, place);
      links.push(link);
      current = after;
    }
    return { site: none, head: begin, links };
  }
  function linkBehind(current, round, depth, place) {
    const strict = (op, n = 0, after = 'plain', isCall = false) => () => [variant('Strict', op, times(n, () => expression(round, depth - 1)), isCall ? place() : none), after];
    if (current === 'hosted') return strict(variant(depth > 0 ? pick(['Call', 'CallList']) : 'Call'), depth > 0 ? 1 : 0, 'plain', true)();
    const short = [
      strict(variant('Member', key()), 0, 'property'), strict(variant('Call'), 0, 'plain', true), strict(variant('New'), 0, 'plain', true), strict(variant('Unary', variant('Not'))), strict(variant('Set', drawn())),
      strict(variant('Init', drawn())), strict(variant('Hole')), strict(variant('Primitive', variant(pick(primitives(1, 1))))),
    ];
    if (round.yields) short.push(strict(variant('Yield')), strict(variant('Delegate')), strict(variant('Yield')));
    if (current === 'property') short.push(strict(variant('Delete')), strict(variant('Step', variant('IncrementAfter'))));
    if (depth <= 0) return pick(short)();
    const primitive = pick(primitives(2, 4));
    const lazy = (when, other) => () => [variant('Lazy', variant(when), expression(round, depth - 1), other ? some(expression(round, depth - 1)) : none), 'plain'];
    const long = [
      strict(variant('Index'), 1, 'property'), strict(variant('Call'), below(3), 'plain', true), strict(variant('CallList'), 1, 'plain', true), strict(variant('CallWith'), 1 + below(2), 'plain', true),
      strict(variant('CallListWith'), 2, 'plain', true), strict(variant('NewList'), 1, 'plain', true), strict(variant('Operator', variant('Add')), 1), strict(variant('Then'), 1), strict(variant('Element'), 1),
      strict(variant(pick(['Define', 'Getter', 'Setter']), key()), 1), strict(variant('Primitive', variant(primitive)), operands[primitive] - 1), lazy('Truthy', false), lazy('Falsy', false), lazy('Choice', true),
      () => [variant('Run', statements(round, depth - 1)), 'plain'],
    ];
    if (current === 'property') long.push(...times(3, () => strict(variant('Put'), 1)), ...times(3, () => strict(variant('Update', variant('Add')), 1)));
    return pick(long.concat(short))();
  }
  const statements = (round, depth) => times(below(3), () => statement(round, depth));
  function cases(round, depth, mayFall) {
    const list = times(below(3) + 1, () => ({ test: some(expression(round, depth)), body: statements(round, depth) }));
    if (below(2)) list.splice(mayFall ? below(list.length + 1) : list.length, 0, { test: none, body: statements(round, depth) });
    return list;
  }
  function statement(round, depth) {
    const short = [() => variant('Do', expression(round, depth)), () => variant('Throw', expression(round, depth))];
    if (round.returns) short.push(() => variant('Return', expression(round, depth)));
    if (round.labels.length > 0) short.push(() => variant('Jump', false, some(pick(round.labels))));
    if (round.loops.length > 0) short.push(() => variant('Jump', true, some(pick(round.loops))));
    if (depth <= 0) return pick(short)();
    const inner = (other) => statements({ ...round, ...other }, depth - 1);
    const long = [
      () => variant('If', cases(round, depth - 1, false)), () => variant('Switch', expression(round, depth - 1), cases(round, depth - 1, true)),
      () => {
        const own = below(3) ? [{ 0: labels++ }] : [];
        return variant('Loop', own, perhaps(() => expression(round, depth - 1)), perhaps(() => expression(round, depth - 1)), inner({ labels: [...own, ...round.labels], loops: [...own, ...round.loops] }));
      },
      () => { const own = { 0: labels++ }; return variant('Labelled', own, inner({ labels: [own, ...round.labels] })); },
      () => variant('TryCatch', inner(), name(), scoped(below(2)), inner()), () => variant('TryFinally', inner(), inner()), () => variant('Scoped', scoped(below(3)), inner()),
    ];
    return pick(long.concat(short))();
  }
  const outside = { returns: false, yields: false, labels: [], loops: [] };
  times(4, name);
  for (let n = 1 + below(3); n > 0; n--) {
    const kind = pick(['Plain', 'Generator', 'Generator', 'Arrow']), parameters = times(below(3), name), depth = 1 + below(3);
    const setup = statements({ ...outside, returns: true }, depth);
    const body = times(1 + below(3), () => statement({ ...outside, returns: true, yields: kind === 'Generator' }, depth));
    functions.push({
      kind: variant(kind), own: perhaps(name), parameters, length: parameters.length, arguments: perhaps(name), cells: [], locals: times(below(2), name), declared: [], setup, body, resumption: none, step: [],
    });
    unheld.push(functions.length - 1);
  }
  const parts = times(1 + below(2), () => ({ names: scoped(below(2)), instantiate: statements(outside, below(3)), body: statements(outside, below(3)) }));
  return { functions, parts, order: parts.map((part, at) => at), fresh: { hints } };
}
module.exports = { randomCore };

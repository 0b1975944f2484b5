// A model of the lowering: the core of a graph of modules, from acorn's trees. It is written by the lowering's definitions and shares nothing with them.
"use strict";
const acorn = require("internal/deps/acorn/acorn/dist/acorn");
let vars;
const newVar = (hint, o) => { const v = Object.assign({ id: vars.length, hint: /^[A-Za-z_]\w*$/.test(hint) ? hint : "v", captured: false, inLoop: false }, o); vars.push(v); return v; };
const E = (head, ...links) => ({ head, links });
const C = v => E({ h: "const", v }), V = v => E({ h: "var", v }), S = (op, parts = [], x = {}) => Object.assign({ op, parts }, x);
const L = (e, ...links) => ({ head: e.head, links: e.links.concat(links) });
const P = (name, ...parts) => S("Prim", parts, { name }), HP = name => E({ h: "prim", name });
const set = (v, e) => L(e, S("Set", [], { v })), init = (v, e) => L(e, S("Init", [], { v })), Do = e => ({ t: "Do", e }), Mem = k => S("Member", [], { key: k }), Then = e => S("Then", [e]), Op = (o, e) => S("Op", [e], { o }), Un = o => S("Un", [], { o });
const If = (test, body, no) => ({ t: "If", cases: [{ test, body }].concat(no ? [{ test: null, body: no }] : []) });
const run = body => ({ op: "Run", body, parts: [] }), lazy = (when, yes, no) => ({ op: "Lazy", when, yes, no, parts: [] });
let labelCount;
// ------------------------------------------------------------------ lower
function Fn(kind, up, o) { return Object.assign({ kind, up, locals: [], loop: 0, params: [], setup: [], body: [], cells: [] }, o); }
const temp = f => { const v = newVar("t", { temp: true, fn: f }); f.locals.push(v); return v; };
function declare(scope, name, kind, fn, o) { const v = newVar(name, Object.assign({ fn, inLoop: fn.loop > 0 }, o)); scope.map.set(name, { v, kind, fn }); return v; }
const Scope = up => ({ up, map: new Map() });
function find(cx, name) { for (let s = cx.scope; s; s = s.up) { const b = s.map.get(name); if (b) return b; } return null; }
function use(cx, b) { if (b.v && b.v.fn !== cx.fn) b.v.captured = true; return b; }
const real = f => { while (f.kind === "arrow") f = f.up; return f; };
function own(f, what, hint) { if (!f[what]) { f[what] = newVar(hint, { fn: f, raw: true }); } return f[what]; }
function far(cx, v) { if (v.fn !== cx.fn) v.captured = true; return V(v); }
const lexical = b => ["let", "const", "class"].includes(b.kind);
function read(cx, name) {
  if (name === "arguments" && !find(cx, name)) { const f = real(cx.fn); if (f.kind !== "module") return far(cx, own(f, "argsVar", "args")); }
  const b = find(cx, name);
  if (!b) return name === "undefined" ? C(undefined) : E({ h: "global", name });
  if (b.kind === "host") return E({ h: "host", name: b.name });
  const t = b.kind === "import" ? b.to() : b;
  if (t.kind === "host") return E({ h: "host", name: t.name });
  use(cx, t);
  return lexical(t) || t.tdz ? L(V(t.v), P("check_ready")) : V(t.v);
}
function assign(cx, name, value) {
  const b = find(cx, name);
  if (b.kind === "import" || b.kind === "host") return L(value, Then(HP("refuse_const")));
  use(cx, b);
  if (b.kind === "const" || b.kind === "self") { const chk = b.kind === "const" ? [Then(L(V(b.v), P("check_ready")))] : []; return L(value, ...chk, Then(HP("refuse_const"))); }
  if (b.kind === "let" || b.kind === "class") { const t = temp(cx.fn); return L(set(t, value), Then(L(V(b.v), P("check_ready"))), Then(set(b.v, V(t)))); }
  return set(b.v, value);
}
function thisOf(cx) {
  const f = real(cx.fn);
  if (f.kind === "module") return C(undefined);
  if (f.gen) return far(cx, own(f, "thisVar", "self"));
  return f.derived ? L(E({ h: "this" }), P("check_ready")) : E({ h: "this" });
}
const listed = (h, cx, es) => E({ h }, ...es.map(e => !e ? S("Hole") : e.type === "SpreadElement" ? P("spread_list", expr(cx, e.argument), C(1)) : S("Element", [expr(cx, e)])));
const list = (cx, es) => listed("list", cx, es), args = (cx, es) => listed("args", cx, es);
const spreads = es => es.some(e => e && e.type === "SpreadElement");
const litKey = p => p.key.type === "Identifier" ? p.key.name : String(p.key.value);
const isIter = (cx, e) => e.type === "MemberExpression" && !e.computed && e.object.type === "Identifier" && e.object.name === "Symbol" && !find(cx, "Symbol");
function keyOf(cx, m, computed, k) { // constant text or an expression that gives a converted key
  if (!computed) return k.type === "Identifier" ? k.name : String(k.value);
  if (isIter(cx, k)) return "@@iterator";
  return L(expr(cx, k), P("to_text"));
}
const K = k => typeof k === "string" ? C(k) : k;
const stable = e => e.links.length === 0 && (e.head.h === "const" || e.head.h === "this" || e.head.h === "var" && e.head.v.temp);
// the base and the key of a member as temporaries, base checked, key converted
function refOf(cx, e, out) {
  const b = temp(cx.fn); out.push(set(b, expr(cx, e.object)));
  if (!e.computed) return { b, key: e.property.name };
  if (isIter(cx, e.property)) return { b, key: "@@iterator" };
  const k = temp(cx.fn); out.push(set(k, expr(cx, e.property)), L(V(b), Mem("@@base")), set(k, L(V(k), P("to_text"))));
  return { b, key: k };
}
const at = r => typeof r.key === "string" ? L(V(r.b), Mem(r.key)) : L(V(r.b), S("Index", [V(r.key)]));
const seq = es => es.slice(1).reduce((a, e) => L(a, Then(e)), es[0]);
const getAt = r => r.key === "@@iterator" ? L(V(r.b), P("iter_start", C(1))) : at(r);
function memberGet(cx, e) {
  if (e.object.type === "Super") return L(K(keyOf(cx, e, e.computed, e.property)), P("super_get", thisOf(cx)));
  if (!e.computed) return L(expr(cx, e.object), Mem(e.property.name));
  if (isIter(cx, e.property)) return L(expr(cx, e.object), P("iter_start", C(1)));
  return L(expr(cx, e.object), S("Index", [expr(cx, e.property)]));
}
function expr(cx, e) {
  switch (e.type) {
    case "Literal": return C(e.value);
    case "Identifier": return read(cx, e.name);
    case "ThisExpression": return thisOf(cx);
    case "ParenthesizedExpression": return expr(cx, e.expression);
    case "TemplateLiteral": { let r = C(e.quasis[0].value.cooked); e.expressions.forEach((x, i) => { r = L(r, Op("+", L(expr(cx, x), P("to_text"))), Op("+", C(e.quasis[i + 1].value.cooked))); }); return r; }
    case "TaggedTemplateExpression": {
      const texts = w => E({ h: "args" }, ...e.quasi.quasis.map(q => S("Element", [C(q.value[w])]))), t = L(texts("cooked"), P("template_object", texts("raw")));
      const args = [t].concat(e.quasi.expressions.map(x => expr(cx, x)));
      return callOn(cx, e.tag, args); }
    case "ArrayExpression": return list(cx, e.elements);
    case "ObjectExpression": return object(cx, e);
    case "FunctionExpression": case "ArrowFunctionExpression": return named(cx, e);
    case "ClassExpression": { const t = temp(cx.fn); return L(C(undefined), run(klass(cx, e, x => Do(set(t, x)))), Then(V(t))); }
    case "MemberExpression": return memberGet(cx, e);
    case "MetaProperty": { const f = real(cx.fn); return f.gen ? far(cx, own(f, "ntVar", "nt")) : HP("new_target"); }
    case "CallExpression": {
      if (e.callee.type === "Super") return L(args(cx, e.arguments), P("super_construct"), P("this_bind"));
      if (spreads(e.arguments)) return callOn(cx, e.callee, null, args(cx, e.arguments), e);
      return callOn(cx, e.callee, e.arguments.map(a => expr(cx, a)), null, e); }
    case "NewExpression": return L(expr(cx, e.callee), P("construct", args(cx, e.arguments)));
    case "SequenceExpression": return seq(e.expressions.map(x => expr(cx, x)));
    case "ConditionalExpression": return L(expr(cx, e.test), lazy("if", expr(cx, e.consequent), expr(cx, e.alternate)));
    case "LogicalExpression": return L(expr(cx, e.left), lazy(e.operator, expr(cx, e.right)));
    case "BinaryExpression": if (e.operator === "**") return L(expr(cx, e.left), P("power", expr(cx, e.right))); return L(expr(cx, e.left), Op(e.operator, expr(cx, e.right)));
    case "UnaryExpression":
      if (e.operator === "delete") { let a = e.argument; if (a.type !== "MemberExpression") return L(expr(cx, a), Then(C(true))); const k = keyOf(cx, a, a.computed, a.property); return L(expr(cx, a.object), typeof k === "string" ? Mem(k) : S("Index", [expr(cx, a.property)]), Un("delete")); }
      return L(expr(cx, e.argument), Un(e.operator));
    case "UpdateExpression": {
      if (e.argument.type === "MemberExpression" && !e.argument.computed) return L(expr(cx, e.argument.object), Mem(e.argument.property.name), S("Step", [], { u: (e.operator === "++" ? "Increment" : "Decrement") + (e.prefix ? "Before" : "After") }));
      const d = e.operator[0], o = temp(cx.fn), give = e.prefix ? L(V(o), Op(d, C(1))) : V(o);
      if (e.argument.type === "Identifier") {
        const r = L(read(cx, e.argument.name), Un("+"));
        const b = find(cx, e.argument.name), t = b.kind === "import" ? b : use(cx, b);
        const wr = t.kind === "let" || t.kind === "class" || t.kind === "param" ? set(t.v, L(V(o), Op(d, C(1)))) : assign(cx, e.argument.name, L(V(o), Op(d, C(1))));
        return seq([set(o, r), wr, give]); }
      const out = [], r = refOf(cx, e.argument, out);
      return seq(out.concat(set(o, L(at(r), Un("+"))), L(at(r), S("Put", [L(V(o), Op(d, C(1)))])), give)); }
    case "AssignmentExpression": return assignment(cx, e);
    case "YieldExpression": {
      if (e.delegate) return L(expr(cx, e.argument), S("Delegate"));
      return L(e.argument ? expr(cx, e.argument) : C(undefined), S("Yield")); }
  }
  throw new Error("expr " + e.type);
}
function isHost(cx, name) { const b = find(cx, name); return b !== null && (b.kind === "import" ? b.to() : b).kind === "host"; }
function callOn(cx, callee, args, spread, node) {
  const at = node && callee.type === "Identifier" && isHost(cx, callee.name) ? { site: { module: cx.m.number, at: node.start } } : {};
  while (callee.type === "ParenthesizedExpression") callee = callee.expression;
  if (callee.type === "MemberExpression") {
    if (callee.object.type === "Super") return L(memberGet(cx, callee), spread ? S("CallListWith", [thisOf(cx), spread]) : S("CallWith", [thisOf(cx)].concat(args)));
    if (callee.computed && isIter(cx, callee.property)) { const t = temp(cx.fn); return L(set(t, expr(cx, callee.object)), P("iter_start", C(1)), spread ? S("CallListWith", [V(t), spread]) : S("CallWith", [V(t)].concat(args))); }
    if (spread) { const t = temp(cx.fn), o = set(t, expr(cx, callee.object)); return L(o, callee.computed ? S("Index", [expr(cx, callee.property)]) : Mem(callee.property.name), S("CallListWith", [V(t), spread])); }
    return L(memberGet(cx, callee), S("Call", args));
  }
  return L(expr(cx, callee), spread ? S("CallList", [spread], at) : S("Call", args, at));
}
function assignment(cx, e) {
  let left = e.left; while (left.type === "ParenthesizedExpression") left = left.expression;
  const op = e.operator.slice(0, -1), with_ = (a, b) => op === "**" ? L(a, P("power", b)) : L(a, Op(op, b));
  if (left.type === "ObjectPattern" || left.type === "ArrayPattern") { const t = temp(cx.fn); return L(set(t, expr(cx, e.right)), run(pattern(cx, left, V(t), null)), Then(V(t))); }
  if (left.type === "Identifier") {
    if (op) { const b = find(cx, left.name), v = with_(read(cx, left.name), expr(cx, e.right)); return b.kind === "let" || b.kind === "class" ? set(use(cx, b).v, v) : assign(cx, left.name, v); }
    return assign(cx, left.name, expr(cx, e.right));
  }
  if (!op && !left.computed) { const o = expr(cx, left.object), r = expr(cx, e.right); if (stable(r)) return L(o, Mem(left.property.name), S("Put", [r])); }
  if (op && op !== "**" && !left.computed) return L(expr(cx, left.object), Mem(left.property.name), S("Update", [expr(cx, e.right)], { o: op }));
  const out = [], r = refOf(cx, left, out); if (!left.computed && !op) out.push(L(V(r.b), Mem("@@base")));
  if (!op) return seq(out.concat(L(at(r), S("Put", [expr(cx, e.right)]))));
  const u = temp(cx.fn); return seq(out.concat(set(u, getAt(r)), L(at(r), S("Put", [with_(V(u), expr(cx, e.right))]))));
}
function object(cx, e) {
  let r = E({ h: "obj" }), i = 0; const seen = new Set();
  for (; i < e.properties.length; i++) { const p = e.properties[i]; if (p.computed || p.method || p.kind !== "init" || seen.has(litKey(p))) break; seen.add(litKey(p)); r = L(r, S("Define", [p.shorthand ? read(cx, p.key.name) : expr(cx, p.value)], { key: litKey(p) })); }
  if (i === e.properties.length) return r;
  const t = temp(cx.fn); r = set(t, r);
  for (; i < e.properties.length; i++) {
    const p = e.properties[i]; let k = keyOf(cx, p, p.computed, p.key);
    if (typeof k !== "string") { const kt = temp(cx.fn); r = L(r, Then(set(kt, k))); k = V(kt); }
    if (p.kind !== "init") r = L(r, Then(L(V(t), P("accessor_put", K(k), func(cx, p.value, "accessor"), C(p.kind === "set")))));
    else r = L(r, Then(L(V(t), P("method_put", K(k), p.method ? func(cx, p.value, "method") : expr(cx, p.value), C(!!p.method)))));
  }
  return L(r, Then(V(t)));
}
function named(cx, e) {
  if (!e.id) return func(cx, e, e.type === "ArrowFunctionExpression" ? "arrow" : "plain");
  const sc = Scope(cx.scope), v = declare(sc, e.id.name, "self", cx.fn, { constant: true }), t = temp(cx.fn);
  return L(C(undefined), run([{ t: "Scoped", names: [v], body: [Do(init(v, func({ ...cx, scope: sc }, e, "plain"))), Do(set(t, V(v)))] }]), Then(V(t)));
}
function hoisted(node, top, out) { // var names, and at a function's top its functions
  (function go(n, first) {
    if (!n || typeof n !== "object") return;
    if (Array.isArray(n)) { n.forEach(x => go(x, first)); return; }
    if (n.type === "FunctionDeclaration") { if (first && top) out.add(n.id.name); return; }
    if (/Function|^Class/.test(n.type)) return;
    if (n.type === "VariableDeclaration" && n.kind === "var") n.declarations.forEach(d => namesOf(d.id).forEach(x => out.add(x)));
    for (const k in n) if (n[k] && typeof n[k] === "object") go(n[k], false);
  })(node, true);
  return out;
}
function namesOf(p) { return !p ? [] : p.type === "Identifier" ? [p.name] : p.type === "ArrayPattern" ? p.elements.flatMap(namesOf) : p.type === "ObjectPattern" ? p.properties.flatMap(q => namesOf(q.value || q.argument)) : p.type === "AssignmentPattern" ? namesOf(p.left) : p.type === "RestElement" ? namesOf(p.argument) : []; }
function func(cx, e, kind, o = {}) {
  const gen = !!e.generator, f = Fn(kind, cx.fn, Object.assign({ gen, hint: e.id ? e.id.name : "f" }, o));
  const simple = e.params.every(p => p.type === "Identifier"), ps = Scope(cx.scope), icx = { ...cx, fn: f, scope: ps, labels: [] };
  const pre = f.ctor ? [Do(HP("class_guard"))] : [];
  f.count = 0; while (f.count < e.params.length && e.params[f.count].type !== "AssignmentPattern" && e.params[f.count].type !== "RestElement") f.count++;
  if (simple) e.params.forEach(p => f.params.push(declare(ps, p.name, "param", f)));
  else {
    const formals = e.params.map(p => p.type === "RestElement" ? null : newVar("p", { fn: f, raw: true }));
    f.params.push(...formals.filter(v => v));
    const names = e.params.flatMap(namesOf), vs = names.map(n => declare(ps, n, "let", f));
    vs.forEach(v => { f.locals.push(v); pre.push(Do(init(v, E({ h: "empty" })))); });
    e.params.forEach((p, i) => {
      if (p.type === "RestElement") { pre.push(...bindTo(icx, p.argument, L(C(i), P("rest_list")), "let")); return; }
      const v = formals[i];
      if (p.type === "AssignmentPattern") pre.push(If(L(V(v), Op("===", C(undefined))), [Do(set(v, expr(icx, p.right)))]), ...bindTo(icx, p.left, V(v), "let"));
      else pre.push(...bindTo(icx, p, V(v), "let"));
    });
  }
  const bs = simple ? ps : Scope(ps), bcx = { ...icx, scope: bs };
  if (e.body.type !== "BlockStatement") { f.setup = pre; f.body = [{ t: "Return", e: expr(bcx, e.body) }]; }
  else {
    const ss = e.body.body;
    for (const n of hoisted(ss, true, new Set())) { if (simple && ps.map.has(n)) continue; const v = declare(bs, n, "var", f); f.locals.push(v); if (!simple && ps.map.has(n)) pre.push(Do(init(v, V(ps.map.get(n).v)))); }
    const inits = [];
    for (const s of ss) if (s.type === "FunctionDeclaration") inits.push([s, bs.map.get(s.id.name).v]);
    const ls = Scope(bs), lex = lexicals({ ...bcx, scope: ls }, ls, ss, true);
    const lcx = { ...bcx, scope: ls }, fin = inits.map(([s, v]) => Do(init(v, func(lcx, s, "plain"))));
    // all that a body declares are names of the call, and its functions are there before a generator is made
    f.locals.push(...lex);
    f.setup = pre.concat(lex.map(v => Do(init(v, E({ h: "empty" })))), fin); f.body = [].concat(...ss.map(s => stat(lcx, s)));
  }
  return E({ h: "fn", f });
}
function lexicals(cx, sc, ss, top) {
  const out = [];
  for (let s of ss) {
    if (/^Export/.test(s.type) && s.declaration) s = s.declaration;
    if (s.type === "VariableDeclaration" && s.kind !== "var") s.declarations.forEach(d => namesOf(d.id).forEach(n => out.push(declare(sc, n, s.kind, cx.fn, { constant: s.kind === "const" }))));
    if (s.type === "ClassDeclaration" && s.id) out.push(declare(sc, s.id.name, "class", cx.fn));
    if (s.type === "FunctionDeclaration" && !top && s.id) out.push(declare(sc, s.id.name, "fn", cx.fn));
  }
  return out;
}
function block(cx, ss) {
  const sc = Scope(cx.scope), icx = { ...cx, scope: sc }, names = lexicals(icx, sc, ss, false);
  const fin = ss.filter(s => s.type === "FunctionDeclaration").map(s => Do(init(sc.map.get(s.id.name).v, func(icx, s, "plain"))));
  const body = fin.concat(...ss.map(s => stat(icx, s)));
  return names.length ? [{ t: "Scoped", names, body }] : body;
}
// a pattern; kind: a declaration's, or null for an assignment
function bindTo(cx, p, value, kind) {
  if (p.type === "Identifier") { if (kind) { const b = kind === "var" ? find(cx, p.name) : find(cx, p.name); use(cx, b); return [Do(kind === "var" ? set(b.v, value) : init(b.v, value))]; } return [Do(assign(cx, p.name, value))]; }
  return pattern(cx, p, value, kind);
}
function target(cx, p, kind) { // what stands before the step or the read, and the put
  while (p.type === "ParenthesizedExpression") p = p.expression;
  if (p.type === "MemberExpression") { const out = [], r = refOf(cx, p, out); out.push(L(V(r.b), Mem("@@base"))); return { pre: out.map(Do), put: v => [Do(L(at(r), S("Put", [v])))] }; }
  return { pre: [], put: v => bindTo(cx, p, v, kind) };
}
function pattern(cx, p, value, kind) {
  const f = cx.fn;
  const defaulted = (q, v) => q.type === "AssignmentPattern" ? [If(L(V(v), Op("===", C(undefined))), [Do(set(v, expr(cx, q.right)))])] : [];
  const inner = q => q.type === "AssignmentPattern" ? q.left : q;
  if (p.type === "ObjectPattern") {
    const s = temp(f), out = [Do(set(s, value)), Do(L(V(s), Mem("@@base")))];
    for (const q of p.properties) {
      let k = keyOf(cx, q, q.computed, q.key);
      if (typeof k !== "string") { const kt = temp(f); out.push(Do(set(kt, k))); k = kt; }
      const tg = target(cx, inner(q.value), kind), v = temp(f);
      out.push(...tg.pre, Do(set(v, getAt({ b: s, key: k }))), ...defaulted(q.value, v), ...tg.put(V(v)));
    }
    return out;
  }
  const it = temp(f), open = temp(f), r = temp(f), ex = newVar("e", { fn: f, raw: true, caught: true }), T = C(true), F = C(false);
  const step = (take) => [Do(set(open, F)), Do(set(r, L(V(it), P("iter_step")))), If(L(V(r), Op("!==", F)), take.concat(Do(set(open, T))))];
  const body = [];
  for (const q of p.elements) {
    if (!q) { body.push(If(V(open), step([]))); continue; }
    if (q.type === "RestElement") {
      const tg = target(cx, q.argument, kind), l = temp(f), v = temp(f);
      body.push(...tg.pre, Do(set(l, E({ h: "list" }))), { t: "Loop", labels: [], test: V(open), body: step([Do(set(v, L(V(r), P("iter_value")))), Do(L(V(l), S("Element", [V(v)])))]) }, ...tg.put(V(l)));
      continue;
    }
    const tg = target(cx, inner(q), kind), v = temp(f);
    body.push(...tg.pre, Do(set(v, C(undefined))), If(V(open), step([Do(set(v, L(V(r), P("iter_value"))))])), ...defaulted(q, v), ...tg.put(V(v)));
  }
  return [Do(set(it, L(value, P("iter_start", C(0))))), Do(set(open, T)), closing(it, open, ex, body)];
}
const closing = (it, open, ex, body) => ({ t: "TryFinally", block: [{ t: "TryCatch", v: ex, block: body, handler: [If(V(open), [Do(set(open, C(false))), Do(L(V(it), P("iter_close", C(true))))]), { t: "Throw", e: V(ex) }] }], last: [If(V(open), [Do(L(V(it), P("iter_close", C(false))))])] });
function klass(cx, e, give) {
  const sc = Scope(cx.scope), f = cx.fn, names = [], icx = { ...cx, scope: sc };
  if (e.id) names.push(declare(sc, e.id.name, "const", f, { constant: true }));
  const out = [], k = temp(f), proto = temp(f), par = temp(f), d = !!e.superClass;
  if (d) out.push(Do(set(par, expr(icx, e.superClass))));
  const c = e.body.body.find(m => m.kind === "constructor");
  const node = c ? c.value : { params: [], body: { type: "BlockStatement", body: [] }, id: null };
  const fe = func(icx, node, "method", { ctor: true, derived: d, hint: e.id ? e.id.name : "C" });
  const cf = fe.head.f;
  if (!c && d) cf.body = [Do(L(E({ h: "args" }, P("spread_list", L(C(0), P("rest_list")), C(1))), P("super_construct"), P("this_bind")))];
  out.push(Do(set(k, L(C(d), P("class_make", d ? V(par) : C(undefined), fe)))), Do(set(proto, L(V(k), Mem("prototype")))));
  for (const m of e.body.body) {
    if (m === c) continue;
    let key = keyOf(icx, m, m.computed, m.key);
    if (typeof key !== "string") { const kt = temp(f); out.push(Do(set(kt, key))); key = V(kt); }
    const o = V(m.static ? k : proto), fn = func(icx, m.value, m.kind === "method" ? "method" : "accessor");
    out.push(Do(m.kind === "method" ? L(o, P("method_put", K(key), fn, C(true))) : L(o, P("accessor_put", K(key), fn, C(m.kind === "set")))));
  }
  if (e.id) out.push(Do(init(names[0], V(k))));
  out.push(give(V(k)));
  return names.length ? [{ t: "Scoped", names, body: out }] : out;
}
function declaration(cx, s) {
  return s.declarations.flatMap(d => d.init ? bindTo(cx, d.id, expr(cx, d.init), s.kind) : s.kind === "var" ? [] : bindTo(cx, d.id, C(undefined), s.kind));
}
function loopBody(cx, names, s, entry) { // body of a loop with the labels of cx
  return entry;
}
function stat(cx, s, own_ = []) {
  const loopCx = (c, l) => { c.fn.loop++; return { ...c, labels: c.labels.concat({ names: own_, brk: l, cont: l, loop: true }) }; };
  switch (s.type) {
    case "EmptyStatement": case "DebuggerStatement": case "ImportDeclaration": case "ExportAllDeclaration": case "FunctionDeclaration": return [];
    case "ExpressionStatement": return [Do(expr(cx, s.expression))];
    case "VariableDeclaration": return declaration(cx, s);
    case "ClassDeclaration": return klass(cx, s, x => Do(init(find(cx, s.id.name).v, x)));
    case "BlockStatement": return block(cx, s.body);
    case "IfStatement": { const cases = []; let n = s; for (;;) { cases.push({ test: expr(cx, n.test), body: stat(cx, n.consequent) }); if (n.alternate && n.alternate.type === "IfStatement") n = n.alternate; else break; } if (n.alternate) cases.push({ test: null, body: stat(cx, n.alternate) }); return [{ t: "If", cases }]; }
    case "ReturnStatement": return [{ t: "Return", e: s.argument ? expr(cx, s.argument) : C(undefined) }];
    case "ThrowStatement": return [{ t: "Throw", e: expr(cx, s.argument) }];
    case "LabeledStatement": {
      const ns = own_.concat(s.label.name); let b = s.body;
      if (/^(For|While|DoWhile|Labeled)/.test(b.type)) return stat(cx, b, ns);
      const l = ++labelCount; return [{ t: "Labelled", label: l, body: stat({ ...cx, labels: cx.labels.concat({ names: ns, brk: l }) }, b) }]; }
    case "BreakStatement": case "ContinueStatement": {
      const on = s.type[0] === "C"; let i = cx.labels.length - 1;
      for (; ; i--) { const l = cx.labels[i]; if (s.label ? l.names.includes(s.label.name) : on ? l.loop : l.loop || l.sw) break; }
      const l = cx.labels[i]; if (on && l.contBreak) return [{ t: "Jump", on: false, label: l.contBreak }];
      return [{ t: "Jump", on, label: on ? l.cont : l.brk }]; }
    case "WhileStatement": { const l = ++labelCount, c = loopCx(cx, l); const r = [{ t: "Loop", labels: [l], test: expr(c, s.test), body: stat(c, s.body) }]; cx.fn.loop--; return r; }
    case "DoWhileStatement": { const l = ++labelCount, k = ++labelCount; cx.fn.loop++; const c = { ...cx, labels: cx.labels.concat({ names: own_, brk: l, loop: true, contBreak: k }) };
      const r = [{ t: "Loop", labels: [l], test: null, body: [{ t: "Labelled", label: k, body: stat(c, s.body) }, If(L(expr(c, s.test), Un("!")), [{ t: "Jump", on: false, label: l }])] }]; cx.fn.loop--; return r; }
    case "ForStatement": {
      const l = ++labelCount; const lex = s.init && s.init.type === "VariableDeclaration" && s.init.kind !== "var";
      cx.fn.loop++; const sc = Scope(cx.scope), icx = { ...cx, scope: sc, labels: cx.labels.concat({ names: own_, brk: l, cont: l, loop: true }) };
      const names = lex ? lexicals(icx, sc, [s.init], false) : [], copy = lex && s.init.kind === "let" ? E({ h: "copy", names }) : null;
      const init = !s.init ? [] : s.init.type === "VariableDeclaration" ? declaration(icx, s.init) : [Do(expr(icx, s.init))];
      let upd = s.update ? expr(icx, s.update) : null; if (copy) upd = upd ? L(copy, Then(upd)) : copy;
      const loop = { t: "Loop", labels: [l], test: s.test ? expr(icx, s.test) : null, update: upd, body: stat(icx, s.body) };
      cx.fn.loop--;
      const all = init.concat(copy ? [Do(copy)] : [], loop); return names.length ? [{ t: "Scoped", names, body: all }] : all; }
    case "ForOfStatement": {
      const l = ++labelCount, f = cx.fn, it = temp(f), open = temp(f), r = temp(f), v = temp(f), ex = newVar("e", { fn: f, raw: true });
      f.loop++;
      const lex = s.left.type === "VariableDeclaration" && s.left.kind !== "var";
      let start;
      if (lex) { const ds = Scope(cx.scope), dcx = { ...cx, scope: ds }, dead = lexicals(dcx, ds, [s.left], false); start = [{ t: "Scoped", names: dead, body: [Do(set(it, L(expr(dcx, s.right), P("iter_start", C(0)))))] }]; }
      else start = [Do(set(it, L(expr(cx, s.right), P("iter_start", C(0)))))];
      const ts = Scope(cx.scope), tcx = { ...cx, scope: ts, labels: cx.labels.concat({ names: own_, brk: l, cont: l, loop: true }) }, names = lex ? lexicals(tcx, ts, [s.left], false) : [];
      const bind = s.left.type === "VariableDeclaration" ? bindTo(tcx, s.left.declarations[0].id, V(v), s.left.kind) : (() => { let p = s.left; if (/Pattern$/.test(p.type)) return pattern(tcx, p, V(v), null); const tg = target(tcx, p, null); return tg.pre.concat(tg.put(V(v))); })();
      const turn = bind.concat(stat(tcx, s.body));
      f.loop--;
      const body = [Do(set(v, L(V(r), P("iter_value")))), Do(set(open, C(true)))].concat(names.length ? [{ t: "Scoped", names, body: turn }] : turn);
      const step = L(set(open, C(false)), Then(set(r, L(V(it), P("iter_step")))), Then(L(V(r), Op("!==", C(false)))));
      return start.concat(Do(set(open, C(false))), closing(it, open, ex, [{ t: "Loop", labels: [l], test: step, body }])); }
    case "SwitchStatement": {
      const l = ++labelCount, sub = temp(cx.fn), sc = Scope(cx.scope), icx = { ...cx, scope: sc, labels: cx.labels.concat({ names: own_, brk: l, sw: true }) };
      const all = s.cases.flatMap(c => c.consequent), names = lexicals(icx, sc, all, false);
      const fin = all.filter(x => x.type === "FunctionDeclaration").map(x => Do(init(sc.map.get(x.id.name).v, func(icx, x, "plain"))));
      const sw = { t: "Switch", e: V(sub), cases: s.cases.map(c => ({ test: c.test ? expr(icx, c.test) : null, body: c.consequent.flatMap(x => stat(icx, x)) })) };
      const body = fin.concat(sw);
      return [Do(set(sub, expr(cx, s.discriminant))), { t: "Labelled", label: l, body: names.length ? [{ t: "Scoped", names, body }] : body }]; }
    case "TryStatement": {
      let b = block(cx, s.block.body);
      if (s.handler) { const raw = newVar("e", { fn: cx.fn, raw: true }), sc = Scope(cx.scope), icx = { ...cx, scope: sc }, names = namesOf(s.handler.param).map(n => declare(sc, n, s.handler.param.type === "Identifier" ? "catch" : "let", cx.fn));
        b = [{ t: "TryCatch", v: raw, names, block: b, handler: bindTo(icx, s.handler.param, V(raw), "let").concat(block(icx, s.handler.body.body)) }]; }
      if (s.finalizer) b = [{ t: "TryFinally", block: b, last: block(cx, s.finalizer.body) }];
      return b; }
    case "ExportNamedDeclaration": return s.declaration ? stat(cx, s.declaration) : [];
    case "ExportDefaultDeclaration": {
      const d = s.declaration, b = cx.scope.map.get("*default*") || null;
      if (d.type === "FunctionDeclaration") return [];
      if (d.type === "ClassDeclaration") return klass(cx, d, x => Do(init(d.id ? find(cx, d.id.name).v : b.v, x)));
      return [Do(init(b.v, expr(cx, d)))]; }
  }
  throw new Error("stat " + s.type);
}// ------------------------------------------------------------------ graphs
const posix = require("path").posix;
function graphOf(sources) {
  vars = []; labelCount = 0;
  const mods = new Map(), list = [];
  (function load(p) {
    if (mods.has(p)) return;
    const m = { path: p, tree: acorn.parse(sources[p], { ecmaVersion: 7, sourceType: "module", preserveParens: true }), number: list.length };
    m.at = s => posix.join(posix.dirname(p), s);
    mods.set(p, m); list.push(m);
    for (const s of m.tree.body) if (s.source && s.source.value !== "host") load(m.at(s.source.value));
  })("main.js");
  return { mods, list };
}
function lowered(sources, hosts) {
  const { mods, list } = graphOf(sources);
  const isFunction = d => d.type === "FunctionDeclaration", isClass = d => d.type === "ClassDeclaration";
  const declaredBy = s => /^Export/.test(s.type) && s.declaration ? s.declaration : s;
  for (const m of list) {
    const f = m.f = Fn("module", null, {}), sc = m.scope = Scope(null), cx = m.cx = { fn: f, scope: sc, labels: [], m };
    m.names = []; m.exports = new Map(); m.stars = []; m.spaces = [];
    const name = (n, kind, o) => { const v = declare(sc, n, kind, f, o); m.names.push(v); return v; };
    for (const s of m.tree.body) if (s.type === "ImportDeclaration") for (const q of s.specifiers) {
      if (s.source.value === "host") { sc.map.set(q.local.name, { kind: "host", name: q.imported.name }); continue; }
      const src = m.at(s.source.value);
      if (q.type === "ImportNamespaceSpecifier") { m.spaces.push([name(q.local.name, "var"), src]); const b = sc.map.get(q.local.name); b.kind = "import"; b.to = () => ({ v: b.v, kind: "var", fn: f }); continue; }
      const wanted = q.type === "ImportDefaultSpecifier" ? "default" : q.imported.name;
      sc.map.set(q.local.name, { kind: "import", to: () => end(src, wanted)[0], src, name: wanted });
    }
    for (const n of hoisted(m.tree.body, false, new Set())) name(n, "var");
    for (const s of m.tree.body) { const d = declaredBy(s); if (isFunction(d) && d.id) name(d.id.name, "fn"); }
    for (const s of m.tree.body) if (s.type === "ExportDefaultDeclaration" && !(s.declaration.id && (isFunction(s.declaration) || isClass(s.declaration)))) name("*default*", isFunction(s.declaration) ? "fn" : "let");
    m.lex = lexicals(cx, sc, m.tree.body, true); m.names.push(...m.lex);
    const dd = sc.map.get("*default*"); if (dd && dd.kind === "let") m.lex.push(dd.v);
    for (const s of m.tree.body) {
      if (s.type === "ExportAllDeclaration") m.stars.push(m.at(s.source.value));
      if (s.type === "ExportDefaultDeclaration") m.exports.set("default", { local: s.declaration.id && (isFunction(s.declaration) || isClass(s.declaration)) ? s.declaration.id.name : "*default*" });
      if (s.type === "ExportNamedDeclaration") {
        if (s.declaration) (s.declaration.declarations ? s.declaration.declarations.flatMap(d => namesOf(d.id)) : [s.declaration.id.name]).forEach(n => m.exports.set(n, { local: n }));
        else s.specifiers.forEach(q => m.exports.set(q.exported.name, s.source ? { src: s.source.value === "host" ? "host" : m.at(s.source.value), name: q.local.name } : { local: q.local.name }));
      }
    }
  }
  function end(p, name, seen = new Set()) {
    if (p === "host") return [{ kind: "host", name }];
    const key = p + "|" + name; if (seen.has(key)) return []; seen.add(key);
    const m = mods.get(p), x = m.exports.get(name);
    if (x) { if (x.src) return end(x.src, x.name, seen); const b = m.scope.map.get(x.local); return b.kind === "import" ? (b.src ? end(b.src, b.name, seen) : [b.to()]) : [b]; }
    if (name === "default") return [];
    const r = []; for (const s of m.stars) for (const b of end(s, name, seen)) if (!r.includes(b)) r.push(b); return r;
  }
  const namesIn = (p, seen = new Set()) => { if (seen.has(p)) return []; seen.add(p); const m = mods.get(p); return [...new Set([...m.exports.keys(), ...m.stars.flatMap(s => namesIn(s, seen).filter(n => n !== "default"))])]; };
  const spaceOf = new Map();
  for (const m of list) {
    m.inst = m.lex.map(v => Do(init(v, E({ h: "empty" }))));
    for (const s of m.tree.body) { const d = declaredBy(s); if (isFunction(d)) m.inst.push(Do(init(m.scope.map.get(d.id ? d.id.name : "*default*").v, func(m.cx, d, "plain")))); }
  }
  for (const m of list) for (const [v, src] of m.spaces) {
    if (spaceOf.has(src)) { m.inst.push(Do(set(v, V(spaceOf.get(src))))); continue; }
    spaceOf.set(src, v);
    const es = [];
    for (const n of namesIn(src).sort()) {
      const b = end(src, n); if (b.length !== 1 || b[0].kind === "host") continue;
      const g = Fn("plain", m.f, { count: 0 }); b[0].v.captured = true;
      g.body = [{ t: "Return", e: lexical(b[0]) ? L(V(b[0].v), P("check_ready")) : V(b[0].v) }];
      es.push(S("Element", [C(n)]), S("Element", [E({ h: "fn", f: g })]));
    }
    m.inst.push(Do(set(v, L(E({ h: "args" }, ...es), P("namespace_make")))));
  }
  const order = [], begun = new Set();
  (function evaluate(p) { if (begun.has(p)) return; begun.add(p); const m = mods.get(p); for (const s of m.tree.body) if (s.source && s.source.value !== "host") evaluate(m.at(s.source.value)); order.push(m.number); })("main.js");
  for (const m of list) m.body = m.tree.body.flatMap(s => stat(m.cx, s));
  list[0].inst.unshift(Do(HP("includes_put")));
  return coreOf(list, order, hosts);
}
// ------------------------------------------------------------------ as the small tree: records by field, variants by tag
const T = (t, ...a) => ({ t, a }), opt = x => x === undefined || x === null ? T("None") : T("Some", x), units = s => Array.from({ length: s.length }, (_, i) => s.charCodeAt(i)), varOf = v => ({ 0: v.id }), labelOf = l => ({ 0: l });
const isShared = v => v.captured && v.inLoop && !v.raw && !v.temp, scopedName = v => ({ var: varOf(v), shared: !!isShared(v), mutable: !v.constant });
const camel = s => s.split("_").map(w => w[0].toUpperCase() + w.slice(1)).join(""), keyOfText = k => T("TextKey", units(k));
const binaries = { "|": "BitOr", "^": "BitXor", "&": "BitAnd", "==": "Equal", "!=": "NotEqual", "===": "Same", "!==": "NotSame", "<": "Less", ">": "Greater", "<=": "AtMost", ">=": "AtLeast", instanceof: "InstanceOf", in: "In", "<<": "ShiftLeft", ">>": "ShiftRight", ">>>": "ShiftRightUnsigned", "+": "Add", "-": "Subtract", "*": "Multiply", "/": "Divide", "%": "Remainder" };
const unaries = { void: "Void", typeof: "Typeof", "+": "Plus", "-": "Minus", "~": "BitNot", "!": "Not" };
function coreOf(list, order, hosts) {
  const functions = [], done = new Map();
  const constant = v => v === undefined ? T("Undefined") : v === null ? T("Null") : typeof v === "boolean" ? T("Truth", v) : typeof v === "number" ? T("Integer", v) : T("Text", units(v));
  const head = h => {
    switch (h.h) {
      case "const": return T("Constant", constant(h.v)); case "empty": return T("Empty"); case "var": return T("Variable", varOf(h.v)); case "this": return T("This");
      case "global": return T("Global", T(h.name + "Global")); case "host": return T("Host", hosts.indexOf(h.name)); case "list": return T("ArrayList"); case "obj": return T("ObjectList"); case "args": return T("ArgumentList");
      case "prim": return T("Primitive", T(camel(h.name))); case "copy": return T("Copy", h.names.map(varOf)); case "fn": return T("Function", { 0: functionOf(h.f) });
    }
    throw new Error("head " + h.h);
  };
  const op = l => {
    switch (l.op) {
      case "Member": return T("Member", keyOfText(l.key)); case "Define": return T("Define", keyOfText(l.key)); case "Op": return T("Operator", T(binaries[l.o])); case "Update": return T("Update", T(binaries[l.o]));
      case "Step": return T("Step", T(l.u)); case "Un": return l.o === "delete" ? T("Delete") : T("Unary", T(unaries[l.o])); case "Set": return T("Set", varOf(l.v)); case "Init": return T("Init", varOf(l.v));
      case "Prim": return T("Primitive", T(camel(l.name)));
    }
    return T(l.op);
  };
  const link = l => l.op === "Run" ? T("Run", stats(l.body)) : l.op === "Lazy" ? T("Lazy", T({ "&&": "Truthy", "||": "Falsy", if: "Choice" }[l.when]), one(l.yes), l.no ? opt(one(l.no)) : T("None")) : T("Strict", op(l), l.parts.map(one), opt(l.site));
  const one = e => ({ site: T("None"), head: head(e.head), links: e.links.map(link) });
  const perhaps = e => e ? opt(one(e)) : T("None"), cases = cs => cs.map(c => ({ test: perhaps(c.test), body: stats(c.body) })), stats = ss => ss.map(statOf);
  function statOf(s) {
    switch (s.t) {
      case "Do": return T("Do", one(s.e)); case "Return": return T("Return", one(s.e)); case "Throw": return T("Throw", one(s.e)); case "If": return T("If", cases(s.cases)); case "Switch": return T("Switch", one(s.e), cases(s.cases));
      case "Loop": return T("Loop", s.labels.map(labelOf), perhaps(s.test), perhaps(s.update), stats(s.body)); case "Labelled": return T("Labelled", labelOf(s.label), stats(s.body)); case "Jump": return T("Jump", s.on, opt(labelOf(s.label)));
      case "TryCatch": return T("TryCatch", stats(s.block), varOf(s.v), (s.names || []).map(scopedName), stats(s.handler)); case "TryFinally": return T("TryFinally", stats(s.block), stats(s.last)); case "Scoped": return T("Scoped", s.names.map(scopedName), stats(s.body));
    }
    throw new Error("statement " + s.t);
  }
  const kindOf = f => f.gen ? T("Generator") : f.ctor ? T("Class", !!f.derived) : T({ plain: "Plain", arrow: "Arrow", method: "Method", accessor: "Accessor" }[f.kind]);
  function functionOf(f) {
    if (done.has(f)) return done.get(f);
    const kept = [[f.thisVar, E({ h: "this" })], [f.ntVar, HP("new_target")]].filter(([v]) => v);
    const setup = stats(kept.map(([v, e]) => Do(init(v, e))).concat(f.setup)), body = stats(f.body);
    functions.push({ kind: kindOf(f), own: T("None"), parameters: f.params.map(varOf), length: f.count || 0, arguments: f.argsVar ? opt(varOf(f.argsVar)) : T("None"), cells: [], locals: [...new Set(f.locals.concat(kept.map(([v]) => v)))].map(varOf), declared: [], setup, body, resumption: T("None"), step: [] });
    done.set(f, functions.length - 1);
    return functions.length - 1;
  }
  const parts = list.map(m => ({ instantiate: stats(m.inst), body: stats(m.body), names: m.names.concat(m.f.locals.filter(v => !m.names.includes(v))).map(scopedName) }));
  return { functions, parts, order, fresh: { hints: vars.map(v => opt(units(v.hint))) } };
}
module.exports = { lowered };

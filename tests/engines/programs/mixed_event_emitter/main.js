import { print } from "host";
class Emitter {
  constructor() { this.on = Object.create(null); }
  listen(name, f, { once = false } = {}) { (this.on[name] || (this.on[name] = [])).push({ f, once }); return () => { this.on[name] = this.on[name].length ? [...drop(this.on[name], f)] : []; }; }
  emit(name, ...args) { const list = this.on[name] || []; this.on[name] = []; for (const l of list) { if (!l.once) this.on[name].push(l); l.f.call(this, ...args); } return list.length; }
}
function* drop(list, f) { for (const l of list) if (l.f !== f) yield l; }
const e = new Emitter();
const off = e.listen("a", (x, y = "default") => print("first", x, y));
e.listen("a", function (...all) { print(this === e, all.length); }, { once: true });
print(e.emit("a", 1), e.emit("a", 2, 3), e.emit("none"));
off();
print(e.emit("a"));

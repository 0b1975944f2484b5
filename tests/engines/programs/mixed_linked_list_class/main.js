import { print } from "host";
class Node { constructor(value, next = null) { this.value = value; this.next = next; } }
class List {
  constructor(values = []) { this.head = null; this.size = 0; for (const v of values) this.add(v); }
  add(value) { this.head = new Node(value, this.head); this.size += 1; return this; }
  reverse() { let [node, done] = [this.head, null]; while (node) [node.next, done, node] = [done, node, node.next]; this.head = done; return this; }
  *[Symbol.iterator]() { for (let { head: n } = this; n; n = n.next) yield n.value; }
  toString() { return `(${[...this].join(" ")})`; }
}
const l = new List("abc");
print(`${l}`, l.size, l.reverse() + "", `${l.add("z")}`);
const [first, ...others] = l;
print(first, others.length);

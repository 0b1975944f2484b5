export let total = 0;
class Base {
  constructor(limit = 2) { this.limit = limit; this.items = []; }
  get size() { return this.items.length; }
}
export default class Queue extends Base {
  constructor(...rest) { super(...rest); }
  put(k) {
    total += k;
    if (this.size === this.limit) this.take();
    this.items.push(k);
  }
  take() {
    const [first, ...others] = this.items;
    this.items = others;
    return first;
  }
  *[Symbol.iterator]() { yield* this.items; }
}

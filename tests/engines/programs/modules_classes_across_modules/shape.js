export let made = 0;
export default class Shape {
  constructor() { made++; }
  describe() { return `${this.title} of ${this.area()}`; }
  static unit() { return new this(1); }
}

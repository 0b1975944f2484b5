import Shape from "./shape.js";
const title = "square";
export class Square extends Shape {
  constructor(side) { super(); this.side = side; }
  get title() { return title; }
  area() { return this.side ** 2; }
}

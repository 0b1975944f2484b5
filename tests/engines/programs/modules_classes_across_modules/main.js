import { print } from "host";
import { Square } from "./square.js";
import Shape, { made } from "./shape.js";
let s = new Square(3);
print(s.area(), s.describe(), s instanceof Shape, made, Square.unit().area());

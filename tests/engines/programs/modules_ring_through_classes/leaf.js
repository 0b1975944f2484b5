import { print } from "host";
import { Node } from "./main.js";
try { Node; } catch (e) { print("not yet", e instanceof ReferenceError); }
export class Leaf { constructor(n) { this.n = n; } sum() { return this.n; } twin() { return new Node(this, this); } }

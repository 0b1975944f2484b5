import { print } from "host";
import { Leaf } from "./leaf.js";
export class Node { constructor(...kids) { this.kids = kids; } sum() { let s = 0; for (const k of this.kids) s += k.sum(); return s; } static leaf(n) { return new Leaf(n); } }
let tree = new Node(Node.leaf(1), new Node(Node.leaf(2), Node.leaf(3)));
print(tree.sum(), Node.leaf(4).twin().sum());

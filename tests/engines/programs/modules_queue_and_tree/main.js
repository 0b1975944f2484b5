import { print } from "host";
import Queue, { total } from "./queue.js";
import { walk, insert } from "./tree.js";
import * as text from "./text.js";
const q = new Queue(3);
let root = null;
for (const k of [5, 2, 8, 1, 9]) {
  root = insert(root, k);
  q.put(k);
}
print(text.list([...q]), total);
for (const { key, depth } of walk(root)) {
  if (key > 8) break;
  print(`${text.pad(depth)}${key}`);
}
print(q.size, text.title);

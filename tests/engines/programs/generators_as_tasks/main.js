import { print } from "host";
let log = [];
function run(tasks) { let queue = [...tasks]; while (queue.length) { let [first, ...rest] = queue; let { value, done } = first.next(log.length); if (!done) { log.push(value); rest.push(first); } queue = rest; } }
function* task(name, n) { for (let i = 0; i < n; i++) { let at = yield name + i; if (at > 5) return; } }
run([task("a", 3), task("b", 1), task("c", 5)]);
print(log.join());

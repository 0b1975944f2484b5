import { print } from "host";
function* g(x) { try { yield* x; } catch (e) { print(e instanceof TypeError); } return "end"; }
for (const x of [undefined, 5, {}, { [Symbol.iterator]() { return 1; } }, { [Symbol.iterator]() { return { next() { return 1; } }; } }]) print(g(x).next().value);

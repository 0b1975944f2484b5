import { print } from "host";
let tests = [], updates = [];
for (let i = 0; tests.push(() => i), i < 3; updates.push(() => i), i++) ;
tests.forEach(f => print("test", f()));
updates.forEach(f => print("update", f()));

import { print } from "host";
import { A, makeB } from "./a.js";
import { B } from "./b.js";
print(makeB().m(), new B().m(), new A().m(), makeB() instanceof A, B.make() instanceof B);

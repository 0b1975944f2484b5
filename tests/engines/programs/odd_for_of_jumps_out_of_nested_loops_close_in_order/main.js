import { print } from "host";
function it(name, n) { let i = 0; return { [Symbol.iterator]() { print("open", name); return this; }, next() { return { value: name + i, done: i++ >= n }; }, return() { print("close", name); return {}; } }; }
function run(how) {
  A: for (const a of it("a", 3)) {
    B: for (let b of it("b", 3)) {
      try {
        for (var c of it("c", 3)) {
          print(a, b, c);
          switch (how) {
            case 0: continue;
            case 1: continue B;
            case 2: continue A;
            case 3: break;
            case 4: break B;
            case 5: break A;
            case 6: return a + b + c;
            default: throw "out";
          }
          print("behind the switch");
          break;
        }
      } finally { print("finally", how); }
    }
  }
  return "end";
}
for (let how = 0; how < 8; how++) try { print(run(how)); } catch (e) { print("caught", e); }

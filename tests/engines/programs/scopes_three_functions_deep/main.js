import { print } from "host";
let makers = [];
for (let i = 0; i < 2; i++) {
  let a = i * 100;
  makers.push(function () {
    let b = a + 10;
    return function () {
      let c = b + 1;
      return () => { a++; b++; c++; return a + b + c + i; };
    };
  });
}
let first = makers[0](), second = makers[1]();
let f = first(), g = first(), h = second();
print(f(), f(), g(), h(), f());

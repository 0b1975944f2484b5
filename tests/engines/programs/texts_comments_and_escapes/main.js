import { print } from "host";
print("a\0b\x41\u0042\u{1F600}\b\f\v\r\t\'\"\\\q", '"', "'", "\
", /* one */ "/* no */" /* two */ + // three
  "// no", /**/ `/* ${/* in */ 1 /* out */} */`);
let a = 1 /* ; */, b = a
/* line
end */ ++a
print(a, b)

import { print } from "host";
let log = v => { print("case", v); return v; };
switch (log(3)) { case log(1): case log(2): print("no"); case log(3): print("three"); case log(4): print("falls"); break; case log(5): default: print("no"); }
switch (log(9)) { case log(1): print("no"); default: print("default"); case log(2): print("falls"); }

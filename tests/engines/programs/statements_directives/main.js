import { print } from "host";
"use strict";
'other';
function f() { "use strict"; 'more'; return this; }
let g = () => { "use strict"; return 1; };
class A { m() { 'use strict'; return this === undefined; } }
print(f() === undefined, g(), new A().m.call(undefined));
"end";

import { print } from "host";
let log = [];
class A { static make(v) { log.push("A.make"); return new this(v); } static get kind() { return "A of " + (this.hasOwnProperty("label") && this.label); } static set kind(v) { this.label = v + "!"; } static *each() { yield this.label; yield 1; } constructor(v) { this.v = v; } who() { return "A" + this.v; } }
class B extends A { static make(v) { log.push("B.make"); return super.make(v + 1); } static get kind() { return "B, " + super.kind; } who() { return "B(" + super.who() + ")"; } }
class C extends B { static make(...vs) { return super.make(...vs); } who() { let f = () => super.who(); return "C(" + f() + ")"; } static ["com" + "puted"]() { return super.kind; } }
A.label = "a"; 
print(A.make(1).who(), B.make(1).who(), C.make(1).who(), log.join());
print(A.kind, C.computed());
C.label = "c"; print(C.computed(), [...C.each()].join());
print(C.make === B.make, C.each === A.each, "make" in C);
A.kind = "x"; print(A.label);
try { B.kind = "y"; } catch (e) { print(e instanceof TypeError); }

import { print } from "host";
for (const h of [1, "t", undefined, {}, { prototype: {} }]) try { class A extends h {} print("no"); } catch (e) { print(e instanceof TypeError); }
function F() {}
F.prototype = 5;
try { class A extends F {} print("no"); } catch (e) { print(e instanceof TypeError); }

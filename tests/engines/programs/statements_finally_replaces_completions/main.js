import { print } from "host";
function a() { try { return 1; } finally { return 2; } }
function b() { try { throw 1; } finally { return 2; } }
function c() { for (;;) { try { return 1; } finally { break; } } return 3; }
function d() { for (let i = 0; i < 3; i++) { try { return i; } finally { continue; } } return "d"; }
function e() { l: try { return 1; } finally { break l; } return "e"; }
function f() { try { try { throw 1; } finally { throw 2; } } catch (e) { return e; } }
function g() { let x = 1; try { return x; } finally { x = 2; } }
print(a(), b(), c(), d(), e(), f(), g());

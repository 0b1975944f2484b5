import { print } from "host";
function a(x, y) {}
function b(x, y = 1, z) {}
function c(...r) {}
function d(x, ...r) {}
function e({ p }, [q]) {}
print(a.length, b.length, c.length, d.length, e.length, ((x, y, z) => 0).length);

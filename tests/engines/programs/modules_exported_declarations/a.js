export var a = 1;
export let b = 2;
export const c = 3;
export function d() { return 4; }
export function* e() { yield 5; }
export class F { f() { return 6; } }
export let { g, k: [h, ...i] } = { g: 7, k: [8, 9, 10] }, j = 11;

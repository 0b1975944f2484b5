export var v = 1;
export let l = 2;
export const k = 3;
export function f() { return 4; }
export function* g() { yield 5; }
export class C { m() { return 6; } }
let x = 7, unseen = 8;
export { x, unseen as s };
export default function () { return 9; }

import { B } from "./b.js";
export class A { m() { return "A"; } static make() { return new this(); } }
export function makeB() { return new B(); }

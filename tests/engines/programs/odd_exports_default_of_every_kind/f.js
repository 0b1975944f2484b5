export default function named() { return "f"; }
export function change() { named = undefined; return typeof named; }

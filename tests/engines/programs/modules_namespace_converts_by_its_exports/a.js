export function toString() { return "text"; }

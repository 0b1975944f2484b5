let x = "a";
export function get() { return x + value; }
var value = 1;

let x = "b";
export function get() { return x + value; }
var value = 2;

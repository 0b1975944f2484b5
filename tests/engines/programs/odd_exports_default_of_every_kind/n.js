let n = 1;
export { n as default, n };
export function bump() { n++; }

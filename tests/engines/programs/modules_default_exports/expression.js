let value = 5;
export { value };
export function set(x) { value = x; }
export default value + 1;

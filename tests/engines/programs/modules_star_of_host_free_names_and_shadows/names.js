export let Object = "object", String = "string";
let undefined2 = "defined";
export { undefined2 as undefined };

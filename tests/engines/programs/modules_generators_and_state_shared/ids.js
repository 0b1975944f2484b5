export let current = 0;
function* ids(from) { for (let i = from; ; i++) { current = i; yield i; } }
let it = ids(1);
export const next = () => it.next().value;
export function reset(n) { it.return(); it = ids(n); }

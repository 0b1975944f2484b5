export let ñ = 7;
export const é = 8;
export function ö() { return 9; }

export const title = "queue\ttree";
export function pad(n, fill = "-") {
  let s = "";
  while (n-- > 0) s += fill;
  return s;
}
export const list = items => `[${items.join(" ")}]`;

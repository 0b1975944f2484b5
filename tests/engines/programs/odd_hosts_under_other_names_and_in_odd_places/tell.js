import { print as p } from "host";
export const tell = (v) => p(v);
export function print(v) { p("mine", v); }

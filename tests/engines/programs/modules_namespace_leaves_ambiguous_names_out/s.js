export * from "./p.js";
export * from "./q.js";

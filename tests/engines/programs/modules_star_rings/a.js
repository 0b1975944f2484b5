export * from "./b.js";
export let a = "a";

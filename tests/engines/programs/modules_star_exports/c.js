export * from "./a.js";
export let c = "c";

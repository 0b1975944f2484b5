export * from "./a.js";
export let b = "b";

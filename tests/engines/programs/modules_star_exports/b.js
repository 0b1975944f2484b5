export * from "./a.js";
export * from "./c.js";
export let own = "own", b = "b of b";

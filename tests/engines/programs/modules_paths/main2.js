export let t = "t";

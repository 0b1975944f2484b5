export let { a1, b: [b1 = a1 + 1] } = { a1: 5, b: [] };

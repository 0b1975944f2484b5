export let same = "one binding";

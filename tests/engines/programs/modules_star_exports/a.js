export let a = "a", b = "b of a";
export default "never by a star";

export default { k: "object" };

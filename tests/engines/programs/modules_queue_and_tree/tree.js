export function insert(node, key) {
  if (node === null) return { key, left: null, right: null };
  const { left, right } = node;
  return key < node.key
    ? { key: node.key, left: insert(left, key), right }
    : { key: node.key, left, right: insert(right, key) };
}
export function* walk(node, depth = 0) {
  if (node === null) return;
  yield* walk(node.left, depth + 1);
  yield { key: node.key, depth };
  yield* walk(node.right, depth + 1);
}

export const name = "kept";

export function tagged(tag) {
  return tag`\ud800`;
}

export const unit = 0.5;

const kinds = {
  circle: ({ r }) => r * r * 3.14,
  0.25: () => 1e21,
};

export async function area(shape) {
  const kind = kinds[shape.kind];
  if (kind !== undefined && kind !== null) {
    return kind(shape);
  }
  const { w, h } = await shape;
  return w * h;
}

/*! The project of the bundlers' tests. */
import { area, unit } from "./shapes.js";
import { Queue } from "./queue.js";

export async function main(shapes) {
  const queue = new Queue();
  for await (const shape of shapes) {
    if (!shape) {
      continue;
    } else {
      queue.add(async () => {
        const size = await area(shape);
        return size === undefined ? null : size * unit;
      });
    }
  }
  return await queue.run();
}

import { open } from "store";

export class Queue extends Array {
  #limit = 10;

  constructor(limit) {
    super();
    if (limit) this.#limit = limit;
  }

  add(item, done = () => {}) {
    if (!item) throw new TypeError("no item");
    if (this.length === this.#limit) done(false);
    else done(this.push(item));
    return !done ? null : this;
  }
}

export function load(path, { retry = 3, log } = {}) {
  const queue = new Queue();
  for (let turn = 0; turn < retry; turn++) {
    try {
      const file = open(path);
      if (!file) continue;
      for (const line of file) if (line) queue.add(line);
      return !queue.length ? undefined : queue;
    } catch (error) {
      if (log) log(`${path}: ${error}`);
    }
  }
}

export class Queue {
  #tasks = [];

  add(task) {
    if (typeof task === "undefined") {
      throw new TypeError("a task is wanted");
    }
    this.#tasks.push(task);
    return true;
  }

  async run() {
    const results = [];
    for (const task of this.#tasks) {
      try {
        results.push(await task());
      } catch (error) {
        results.push(`failed: ${error.message}`);
      }
    }
    return results;
  }
}

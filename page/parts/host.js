"use strict";
// Runs the module of the page: in the page's worker, and in node. Each task gets an instance of its own, which is dropped after it.
const dsr = (() => {
  // The tasks, in the order of their numbers (crates/dsr_page/specs/Tasks.antt).
  const TASKS = ["apply", "play", "play --transcript", "check", "explain", "explain --data"];
  // Room that is lent costs little before it is used. If it is too small, the task is done once more: what a million events are told in has this room.
  const ROOM = 1 << 20, MOST_ROOM = 1 << 28, ROOM_FOR_ERRORS = 4096, SIZE_OF_DONE = 24;
  const NO_MEMORY = { status: 3, written: 0, output: new Uint8Array(0), errors: new TextEncoder().encode("dsr: no memory\n"), memory: 0 };

  // What the task makes of this text, in bytes, as `dsr` writes it on its two streams, with its exit status and with how much it wrote; of a longer output only
  // the first `most` bytes.
  function run(module, task, text, most = Infinity) {
    let room = Math.min(most, MOST_ROOM, ROOM + 64 * text.length);
    for (;;) {
      const done = runOnce(module, TASKS.indexOf(task), text, room);
      if (done.written <= room || room === most) return done;
      room = done.written;
    }
  }

  function runOnce(module, number, text, room) {
    const { memory, malloc, dsr_page_run: call } = new WebAssembly.Instance(module, {}).exports;
    const lent = [text.length, room, ROOM_FOR_ERRORS, SIZE_OF_DONE].map(size => [malloc(BigInt(size)), BigInt(size)]);
    if (lent.some(([at]) => at === 0n)) return NO_MEMORY;
    const [input, output, errors, [done]] = lent, bytes = (at, length) => new Uint8Array(memory.buffer, Number(at), length);
    bytes(input[0], text.length).set(text);
    call(BigInt(number), ...input, ...output, ...errors, done);
    const [status, written, told] = [...new BigUint64Array(memory.buffer, Number(done), 3)].map(Number);
    return {
      status, written, output: bytes(output[0], Math.min(written, room)).slice(), errors: bytes(errors[0], Math.min(told, ROOM_FOR_ERRORS)).slice(),
      memory: memory.buffer.byteLength,
    };
  }

  return { TASKS, run };
})();
if (typeof module !== "undefined") module.exports = dsr;

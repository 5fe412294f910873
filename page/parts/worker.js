"use strict";
// The worker of the page. It is told the module and the page of pictures, and then texts, each with what to do. What it answers is short, however long the
// text is: of an output the beginning, and how long it is.
const MOST_SHOWN = 100_000, MOST_MARKS = 2000;
let compiled, template;
// The play that was drawn last, and its data lines, of which another stretch may be drawn next; null if another task was done since than one of these.
let held = null;
const KEEPS_DRAWN = ["picture", "marks"];

async function unpacked(bytes) {
  return new Response(new Blob([bytes]).stream().pipeThrough(new DecompressionStream("gzip"))).arrayBuffer();
}

const decoded = bytes => new TextDecoder().decode(bytes);

// What is told of a run: the beginning of its output up to the last line that has room, how many bytes that leaves out, and its errors.
function told({ status, output, written, errors, memory }) {
  const end = written <= MOST_SHOWN ? written : output.lastIndexOf(10, MOST_SHOWN) + 1;
  return { status, output: decoded(output.subarray(0, end)), more: written - end, errors: decoded(errors), memory };
}

const perform = (task, text) => dsr.run(compiled, task, text);
// The same, if no more is needed than what is told of it.
const tell = (task, text) => told(dsr.run(compiled, task, text, MOST_SHOWN));

const isSame = (one, other) => one.length === other.length && one.every((byte, at) => byte === other[at]);

// A picture of a play, or of the stretch of it for this spot.
function drawn(text, title, spot) {
  if (!held || !isSame(held.text, text)) {
    held = null;
    const ended = perform("explain --data", text);
    if (ended.status) return told(ended);
    held = { text, memory: ended.memory, run: stretch.indexed(ended.output) };
  }
  const { page, part } = stretch.drawn(held.run, template, title, spot);
  return { status: 0, errors: "", memory: held.memory, page: new Blob([page], { type: "text/html" }), part };
}

// A play is played, and its transcript checked.
function checked(text) {
  const played = perform("play --transcript", text);
  if (played.status) return told(played);
  return { ...tell("check", played.output), transcript: told(played) };
}

// A transcript is checked; of one that is no transcript of a run, it is explained why not.
function judged(text) {
  const ended = tell("check", text);
  return ended.status ? { ...ended, why: tell("explain", text).output } : ended;
}

// The report of a play, by which its outcome is told in short, and the explanation.
function explained(text) {
  const ended = tell("explain", text);
  return { ...ended, report: ended.status ? "" : tell("play", text).output };
}

// Of a play what is expected in its first bad line, as [line, column, what], or else its refused events.
function marked(text) {
  const ended = perform("explain --data", text);
  if (ended.status) {
    const found = decoded(perform("explain", text).output).match(/^line (\d+), column (\d+): (?:empty lines are not allowed; )?expected (.*)/);
    return { expected: found ? [Number(found[1]), Number(found[2]), found[3]] : null, refused: [] };
  }
  const refused = [];
  let last = null;
  for (const line of decoded(ended.output).split("\n")) {
    const words = line.split(" ");
    if (words[0] === "event") {
      last = words[6] === "done" ? null : { line: Number(words[2]), event: Number(words[1]), ends: words.slice(4, 6), outcome: words[6], why: [] };
      if (last && refused.length < MOST_MARKS) refused.push(last);
    } else if (words[0] === "why" && last) {
      last.why.push(picture.reasonOf(line.slice(4)));
    }
  }
  return { expected: null, refused };
}

// All that a task writes, to be saved.
function whole(text, task) {
  const { output, errors } = task === "check a play" ? perform("check", perform("play --transcript", text).output) : perform(task, text);
  if (!output.length) throw new Error(decoded(errors));
  return { whole: new Blob([output], { type: "text/plain" }) };
}

const DO = {
  picture: (text, { title, spot }) => drawn(text, title, spot), explain: explained, marks: marked, check: judged, "check a play": checked,
  whole: (text, { of }) => whole(text, of),
};

onmessage = async ({ data }) => {
  try {
    if (data.module) {
      template = data.template;
      compiled = await WebAssembly.compile(await unpacked(data.module));
      postMessage({ ready: true });
      return;
    }
    const text = typeof data.text === "string" ? new TextEncoder().encode(data.text) : new Uint8Array(await data.text.arrayBuffer());
    const begun = performance.now();
    if (!KEEPS_DRAWN.includes(data.task)) held = null;
    const answer = DO[data.task] ? DO[data.task](text, data) : tell(data.task, text);
    postMessage({ id: data.id, milliseconds: performance.now() - begun, ...answer });
  } catch (fault) {
    postMessage({ id: data.id, fault: String(fault && fault.message || fault) });
  }
};

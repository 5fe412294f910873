"use strict";
// For tests/page.py: node page_cases.js MODULE. Each line of its input is a case in JSON: a task, a text, and what must come of it, in base64; or data lines,
// and what must be drawn of them, or null where they are none, or what must be said of an event, or at which events stretches of them are drawn, each of which must
// have what the picture of the whole has there. It writes what is wrong with each, or null.
const fs = require("fs"), path = require("path"), assert = require("assert");
const parts = path.join(__dirname, "..", "page", "parts"), dsr = require(`${parts}/host.js`), picture = require(`${parts}/picture.js`);
// In the worker, pictures and stretches are one script.
globalThis.picture = picture;
const stretch = require(`${parts}/stretch.js`);
const compiled = new WebAssembly.Module(fs.readFileSync(process.argv[2])), bytes = text => Buffer.from(text, "base64");

function checkTask(wanted) {
  const { status, output, errors } = dsr.run(compiled, wanted.task, bytes(wanted.text)), latin = data => Buffer.from(data).toString("latin1");
  const expected = { status: wanted.status, output: latin(bytes(wanted.output)), errors: latin(bytes(wanted.errors)) };
  assert.deepStrictEqual({ status, output: latin(output), errors: latin(errors) }, expected);
}

// Where the row of an event has its band, the other half, whether it says anything, and whether something of it is dropped; and what is said of it.
const BAND = 4, MATE = 5, DROPPED = 7, SENTENCE = 9, ENVELOPE = 10, NOTES = 11;
// Where what was kept and what was decided of a slot has its event; and of so many slots it is compared.
const CELL_EVENT = 2, DECISION_EVENT = 1, LAST_SLOTS = 40;

function dataOf(data) {
  try {
    return picture.dataOf(data, "a title");
  } catch (thrown) {
    if (thrown instanceof picture.BadData) return null;
    throw thrown;
  }
}

// What SVGs show too.
function drawn(data) {
  const found = dataOf(data);
  if (!found) return null;
  const { shape, rounds, slots, names, bands } = found;
  return JSON.parse(JSON.stringify({ shape, rounds, slots, names, bands, events: found.events.map(event => event.slice(BAND, DROPPED + 1)) }));
}

function said(data, at) {
  const { events, texts } = dataOf(data), event = events[at];
  return [texts[event[SENTENCE]], ...event[NOTES].map(([, text]) => texts[text])];
}

// What the row of this event says, with texts for their places; without the note on an event that is not in the stretch, and with the other half by its number.
function rowOf({ events, texts, first }, event, end) {
  const row = events[event - first].slice(), mate = row[MATE] + first;
  row[BAND] = null;
  row[MATE] = row[MATE] < 0 || mate >= end ? null : mate;
  row[SENTENCE] = texts[row[SENTENCE]];
  row[ENVELOPE] = texts[row[ENVELOPE]];
  row[NOTES] = row[NOTES].map(([kind, text]) => [kind, texts[text]]).filter(([, text]) => !text.endsWith(", before the events that are shown."));
  return row;
}

// What was kept and decided of the last slots by this event, of which each has its events by their numbers.
function slotsBy({ slots, first }, end) {
  const by = (rows, at) => rows.map(row => row.map((cell, nth) => nth === at ? cell + first : cell)).filter(row => row[at] < end);
  const found = Object.entries(slots).map(([slot, [cells, decided]]) => [slot, by(cells, CELL_EVENT), by(decided, DECISION_EVENT)]);
  return found.filter(([, cells, decided]) => cells.length + decided.length).slice(-LAST_SLOTS);
}

// A stretch must have its event, and what the whole has of each of its events and of the last slots.
function checkStretch(data, wanted) {
  const run = stretch.indexed(data), whole = picture.dataOf(data.toString(), "a title"), [first, end] = stretch.around(run, wanted);
  assert.strictEqual(run.total, whole.events.length);
  assert.ok(first <= wanted && wanted < end && end - first <= stretch.MOST_EVENTS && end <= run.total, `${first} to ${end}`);
  const drawn = picture.dataOf(stretch.linesOf(run, first, end), "a title", stretch.before(run, first), run.total);
  assert.deepStrictEqual([drawn.first, drawn.total, drawn.events.length], [first, run.total, end - first]);
  const last = end === run.total ? end : end - 1;
  for (let event = first; event < last; event++) {
    const [found, expected] = [drawn, whole].map(of => rowOf(of, event, end));
    if (expected[MATE] < first) expected[MATE] = null;
    assert.deepStrictEqual(found, expected);
    assert.strictEqual(stretch.eventOf(run, stretch.lineOf(run, event)) <= event, true);
  }
  assert.deepStrictEqual(slotsBy(drawn, end), slotsBy(whole, end));
}

for (const line of fs.readFileSync(0, "utf8").split("\n").filter(Boolean)) {
  const wanted = JSON.parse(line);
  let fault = null;
  try {
    const data = wanted.data === undefined ? "" : bytes(wanted.data).toString();
    if (wanted.task) checkTask(wanted);
    else if (wanted.at !== undefined) checkStretch(bytes(wanted.data), wanted.at);
    else if (wanted.said) assert.deepStrictEqual(said(data, wanted.event), wanted.said);
    else assert.deepStrictEqual(drawn(data), wanted.drawn);
  } catch (thrown) {
    fault = String(thrown.message || thrown).slice(0, 800);
  }
  console.log(JSON.stringify({ name: wanted.name, fault }));
}

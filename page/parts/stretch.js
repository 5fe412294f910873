"use strict";
// A long run is drawn in stretches: the events around one, as many as are drawn at once, with what the events before them leave behind (picture.Before). Data
// lines are given in bytes, since those of a million events may be longer than a text can be.
const stretch = (() => {
  // How many events and bytes of data lines a stretch has at most, and how many events stand before the one that it is for.
  const MOST_EVENTS = 2000, MOST_BYTES = 1 << 20, LEAD = 500;
  // How many events are read at once of those before a stretch; and what these leave behind is kept after so many, so that one goes on quickly from there.
  const READ = 5000, KEPT = 50_000;
  // A stretch begins with an event whose number is a multiple of this one, so that none begins just after the run does.
  const STEP = 100;
  const LETTER_E = 101, LINE_FEED = 10, MOST_BYTES_OF_NUMBERS = 64;

  const decoded = bytes => new TextDecoder().decode(bytes);

  // Data lines with the places where an event begins, and the place of what follows the last one; and the run's requests, or some if they are too many for
  // letters. Lines of events alone begin with an e.
  function indexed(lines) {
    const places = [], requests = new Set();
    for (let at = 0, end; (end = lines.indexOf(LINE_FEED, at)) >= 0; at = end + 1) if (lines[at] === LETTER_E) places.push(at);
    const total = places.length;
    places.push(lines.length);
    for (let at = 0; at < total && requests.size <= picture.MOST_LETTERS; at += READ)
      picture.addRequests(requests, decoded(lines.subarray(places[at], places[Math.min(total, at + READ)])));
    return { lines, places, total, requests: [...requests], kept: [] };
  }

  // Of which line of the play this event is.
  function lineOf({ lines, places }, event) {
    return Number(decoded(lines.subarray(places[event], places[event] + MOST_BYTES_OF_NUMBERS)).split(" ")[2]);
  }

  // The first event of this line, or of one after it; the last event if there is none.
  function eventOf(run, line) {
    let low = 0, high = Math.max(0, run.total - 1);
    while (low < high) {
      const middle = (low + high) >> 1;
      if (lineOf(run, middle) < line) low = middle + 1; else high = middle;
    }
    return low;
  }

  // The stretch for this event: its first event, and the one after its last. It has the event, and is as long as it may be.
  function around({ places, total }, wanted) {
    const event = Math.max(0, Math.min(total - 1, wanted)), lead = Math.max(LEAD, MOST_EVENTS - STEP - (total - event));
    let first = event, end = Math.min(total, event + 1);
    while (first > 0 && event - first < lead && places[event + 1] - places[first - 1] <= MOST_BYTES / 2) first--;
    first -= first % STEP;
    while (end < total && end - first < MOST_EVENTS && places[end + 1] - places[first] <= MOST_BYTES) end++;
    return [first, end];
  }

  // What the events before this one leave behind. They are read from the last place on, before which that is kept.
  function before({ lines, places, requests, kept }, first) {
    const last = kept[Math.min(kept.length, Math.floor(first / KEPT)) - 1], found = last ? last.copy() : new picture.Before(requests);
    for (let at = found.first; at < first; at += READ) {
      found.read(decoded(lines.subarray(places[at], places[Math.min(first, at + READ)])));
      if (found.first === KEPT * (kept.length + 1)) kept.push(found.copy());
    }
    return found;
  }

  // The text of the data lines of these events, with the header.
  function linesOf({ lines, places }, first, end) {
    return decoded(lines.subarray(0, places[0])) + decoded(lines.subarray(places[first], places[end]));
  }

  // A page with a picture of the stretch for this event, or if that is null, for the first event of this line of a long play; and what is drawn: the first event,
  // the one after the last, how many there are in all, the lines of these two, and the event that it is for, or null.
  function drawn(run, template, title, { event, line }) {
    const { total } = run, asked = event === null && line && total > MOST_EVENTS ? eventOf(run, line) : event, [first, end] = around(run, asked || 0);
    const page = picture.pageOf(template, linesOf(run, first, end), title, before(run, first), total);
    return { page, part: { first, end, total, lines: total ? [lineOf(run, first), lineOf(run, end - 1)] : [0, 0], event: asked } };
  }

  return { MOST_EVENTS, around, before, drawn, eventOf, indexed, lineOf, linesOf };
})();
if (typeof module !== "undefined") module.exports = stretch;

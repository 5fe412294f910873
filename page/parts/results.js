"use strict";
// What comes of a text, as it is shown.

const code = words => `<code>${escaped(words)}</code>`;
const plural = (count, word) => `${count.toLocaleString("en")} ${word}${count === 1 ? "" : "s"}`;
const listed = items => items.length < 2 ? items.join("") : `${items.slice(0, -1).join(", ")} and ${items[items.length - 1]}`;
const MOST_LISTED = 6;
// What is long stands in parts, which are shown one after another: how many letters of a text, and how many events of an explanation, a part has.
const PART_OF_TEXT = 4000, PART_OF_EVENTS = 25;

const part = (inside, name = "") => `<div class="part ${name}" role="presentation">${inside}</div>`;

// A text in parts that end with lines; a short one stands alone.
function parted(output) {
  const parts = [];
  for (let at = 0, end; at < output.length; at = end) {
    end = output.indexOf("\n", at + PART_OF_TEXT) + 1 || output.length;
    parts.push(output.slice(at, end));
  }
  return parts.length < 2 ? escaped(output) : parts.map(lines => part(escaped(lines))).join("");
}

// Says of an output how much of it is shown, if that is not all, and offers to save all that this task writes.
function rest(shown, more, task) {
  if (!more) return "";
  const bytes = new TextEncoder().encode(shown).length, told = `These are the first ${bytes.toLocaleString("en")} of ${(bytes + more).toLocaleString("en")} bytes.`;
  return `<p class="soft">${told} <button data-save="${task}" title="Saves the whole output in a file, in which one can search">Save all of it</button></p>`;
}

// What a task wrote: the beginning of it, if there is more.
const pre = (output, more, task) => `<pre>${parted(output)}</pre>${rest(output, more, task)}`;

const fault = ended => ended.errors ? `<pre class="wrong">${escaped(ended.errors)}</pre>` : "";

// The first of these items, and how many there are besides.
function some(items, total = items.length) {
  return total > MOST_LISTED ? [...items.slice(0, MOST_LISTED), `… and ${total - MOST_LISTED} more`] : items;
}

// What a play came to in a few sentences, by its report, and by its explanation if there is one.
function inShort(report, explained = "") {
  const rows = report.split("\n").map(line => line.split(" ")), of = word => rows.filter(row => row[0] === word).map(row => row.slice(1));
  const [[done] = [0]] = of("done"), [[refused] = [0]] = of("refused"), [first] = of("first"), found = [];
  found.push(`${plural(Number(done), "event")} happened, and ${Number(refused) ? `<b class="drop">${plural(Number(refused), "event")} ${refused === "1" ? "was" : "were"} refused</b>` : "none was refused"}.` +
    (first ? ` The first is <a href="#" data-explain="${first[0]}">event ${first[0]}</a>, with ${code(first.slice(1).join(" "))}.` : ""));
  found.push(...decisions(of("decided")));
  const accepted = of("accepted").map(([client, number, place, ...answer]) => `<b class="good">${client} accepted ${code(answer.join(" "))}</b> as the answer to its request ${number}, which is at place ${place} of the history.`);
  found.push(...(accepted.length ? some(accepted) : ["No client accepted a reply."]), ...some(unanswered(explained)));
  return `<ul class="short">${found.map(line => `<li>${line}</li>`).join("")}</ul>`;
}

// The clients that still wait at the end of an explanation.
function unanswered(explained) {
  return [...explained.matchAll(/^(c\d+): waits [^;\n]*\brequest (\d+)/gm)].map(([, client, number]) => `${client} has accepted no reply to its request ${number}.`);
}

// What loyal replicas decided, slot by slot; some may have decided more than others.
function decisions(decided) {
  const longest = decided.reduce((most, row) => row.length > most.length ? row : most, []).slice(1);
  if (!longest.length) return ["No slot was decided."];
  const slots = longest.slice(0, MOST_LISTED).map((content, slot) => {
    const by = decided.filter(row => row.length > slot + 1).map(row => row[0]);
    return `${listed(by)} decided slot ${slot}: ${content === "idle" ? "idle, so nothing of it is done" : code(content)}.`;
  });
  return some(slots, longest.length);
}

// ---- explanations

const TOLD_BELOW = /kept, as|decides|acts at|accepts|does not act|not proper|dropped, as|not its envelope|no vote|because/;

// Each event of an explanation with the lines below it; what belongs to no event has no number.
function eventsOf(output) {
  const found = [];
  for (const line of output.split("\n")) {
    const head = line.match(/^line (\d+), event (\d+): (.*)$/);
    if (head) found.push({ line: Number(head[1]), event: Number(head[2]), told: head[3], notes: [] });
    else if (line.startsWith("    ") && found.length) found[found.length - 1].notes.push(line.trim());
    else if (line) found.push({ line: 0, event: null, told: line, notes: [] });
  }
  return found;
}

function noteKind(note) {
  if (/accepts|acts at|decides|kept, as/.test(note)) return "good";
  return /not proper|dropped, as|no vote|does not act|not its envelope|because/.test(note) ? "drop" : "soft";
}

// Whether an event changes little: nothing is refused, planted, or told below it but who holds a request or closes a round.
function isDull({ event, told, notes }) {
  return event !== null && !told.startsWith("refused") && !(/ plants for /.test(told) && !told.endsWith(": empty")) && !notes.some(note => TOLD_BELOW.test(note));
}

function eventRow({ line, event, told, notes }, isDull, isFirst) {
  const below = notes.map(note => `<div class="note ${noteKind(note)}">${escaped(note)}</div>`).join("");
  if (event === null) return `<div class="event">${escaped(told)}${below}</div>`;
  const refused = told.startsWith("refused"), planted = / plants for /.test(told);
  return `<div class="event ${isDull ? "dull" : ""}" data-line="${line}" data-event="${event}" tabindex="${isFirst ? 0 : -1}" role="listitem"><a href="#" data-line="${line}" data-event="${event}" tabindex="-1"` +
    ` title="Goes to line ${line} of the play">line ${line}, event ${event}</a>: <span class="${refused ? "drop" : planted ? "tried" : ""}">${escaped(told)}</span>` +
    ` <a href="#" class="to-picture" data-picture="${event}" tabindex="-1" aria-label="event ${event} in the picture">picture</a>${below}</div>`;
}

// The rows of events, in parts.
function rowsOf(events) {
  const dull = events.map(isDull), first = events.findIndex(({ event }, at) => event !== null && !dull[at]), parts = [];
  for (let from = 0; from < events.length; from += PART_OF_EVENTS) {
    const rows = events.slice(from, from + PART_OF_EVENTS).map((event, at) => eventRow(event, dull[from + at], from + at === first));
    parts.push(part(rows.join(""), showsAll ? "" : "brief"));
  }
  return parts.join("");
}

function explanation({ output, more, report }) {
  return `<h2>What came of it</h2>${inShort(report, output)}<h2>Why <label><input type="checkbox" id="every" ${showsAll ? "checked" : ""}> every event, also those that change little</label></h2>` +
    `<p class="soft">A line leads to its line of the play, and to its place in the picture. <code>0/c0#1:write:a:1~c0/r0+r1</code> is a chain of slot 0. It proposes ` +
    `c0's request 1, which c0 signed (<code>~c0</code>). The chain is signed by r0, then by r1.</p>` +
    `<div id="events" role="list" aria-label="Events: the arrow keys go from one to the next">${rowsOf(eventsOf(output))}</div>${rest(output, more, "explain")}`;
}

// ---- pictures

let shownPage = "", shownPart = null;

function framed({ page, part }) {
  URL.revokeObjectURL(shownPage);
  shownPage = URL.createObjectURL(page);
  shownPart = part;
  return `<iframe title="The picture of the run" src="${shownPage}${part.event === null ? "" : `#event-${part.event}`}"></iframe>`;
}

// Whether the picture that is shown has this event; or, if that is null, what there is of events of this line.
function isDrawn(line, event) {
  const { first, end, total, lines: [low, high] } = shownPart;
  if (event !== null) return first <= event && event < end;
  return (first === 0 || low <= line) && (end === total || line <= high);
}

// ---- all of it

function checkOfPlay(ended) {
  if (!ended.transcript) return fault(ended);
  const verdict = ended.status ? fault(ended) : `<h2 class="good">The transcript of this play is a run</h2>${pre(ended.output, ended.more, "check a play")}`;
  const canEdit = !ended.transcript.more;
  return `${verdict}<h2>The transcript${canEdit ? ' <button id="edit" title="Puts the transcript into the editor">Edit it</button>' : ""}</h2>` +
    `<p class="soft">One step a line, as a service may record them. Edit it, leave out a step or lie about one, and it is no run from that line on.</p>${pre(ended.transcript.output, ended.transcript.more, "play --transcript")}`;
}

function shownOf(doing, ended) {
  if (doing === "picture" && ended.page) return framed(ended);
  if (doing === "check a play") return checkOfPlay(ended);
  if (doing === "explain" && !ended.status) return explanation(ended);
  if (doing === "check" && ended.why) return `${fault(ended)}<h2>Why</h2>${pre(ended.why, 0, "explain")}`;
  const verdict = doing === "check" && !ended.status ? '<h2 class="good">This transcript is a run</h2>' : doing === "play" && !ended.status ? `<h2>What came of it</h2>${inShort(ended.output)}<h2>As ${code("dsr play")} writes it</h2>` : "";
  return fault(ended) + verdict + pre(ended.output, ended.more, doing);
}

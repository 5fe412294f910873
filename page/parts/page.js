"use strict";
// The page: what the reader does, and what is done for it in the worker.

// The worker, which is told things and is ended, and those who wait for what it answers.
let worker = null, waiting = new Map(), isReady, serial = 0;
// What is done with the text, how many times something was, and whether it has been done to the end.
let task = "explain", round = 0, hasRun = false, showsAll = false;
let sample = null, transcript = "", soon = 0;
// The text of which the result is shown.
let performed = "";
const LATE = 300, PAUSE = 250;
// For how long a file that is to be saved is kept, and for how long at most parts are shown before the page does what waits, in milliseconds.
const SAVED = 60_000, TURN = 8;
// Whether the text and what comes of it are side by side.
const isWide = matchMedia("(min-width: 861px)");
// Lines to change in the first attack that is shown, each with what to look for.
const TRIES = {
  "two-faced-sender": [
    { told: "Make r0 honest", old: "plant r0 r2 round 0 0/c1#1:write:a:2~c1/r0", to: "plant r0 r2 round 0 0/c0#1:write:a:1~c0/r0" },
    { told: "Forge c0's request", old: "plant r0 r1 round 0 0/c0#1:write:a:1~c0/r0", to: "plant r0 r1 round 0 0/c0#1:write:a:9~c0/r0" },
    { told: "Leave out the post to r1", old: "plant r0 r1 round 0 0/c0#1:write:a:1~c0/r0\n", to: "" },
    { told: "Stay silent to r1", old: "plant r0 r1 round 0 0/c0#1:write:a:1~c0/r0", to: "plant r0 r1 empty" },
    { told: "Misspell a line", old: "hears c1", to: "heers c1" },
  ],
};

const isSample = () => sample !== null && !long && by("text").value === sample.text;

// ---- the worker

// Starts a worker in this page, which hears what it answers.
function startHere(hear) {
  const it = new Worker(URL.createObjectURL(new Blob([by("worker").textContent], { type: "text/javascript" })));
  it.onmessage = ({ data }) => hear(data);
  it.onerror = ({ message }) => hear({ fault: message || "the worker cannot be started" });
  return { tell: data => it.postMessage(data), end: () => it.terminate() };
}

// Starts it in a page of another origin (page.html), which hands on what the two tell each other. Chromium gives such a page a process of its own. A long task
// has a gigabyte of memory, and while a browser frees that, no thread of the same process gets any, so that this page would not answer.
function startApart(hear) {
  const frame = document.createElement("iframe"), { port1: port, port2: its } = new MessageChannel();
  frame.className = "apart";
  frame.sandbox = "allow-scripts";
  frame.tabIndex = -1;
  frame.setAttribute("aria-hidden", "true");
  frame.srcdoc = `<script>${by("apart").textContent}<\/script>`;
  frame.onload = () => frame.contentWindow.postMessage(by("worker").textContent, "*", [its]);
  port.onmessage = ({ data }) => hear(data);
  document.body.append(frame);
  return { tell: data => port.postMessage(data), end: () => frame.remove() };
}

// Starts the worker in one of these ways, and waits until it has the module.
function started(start) {
  return new Promise((resolve, refuse) => {
    worker = start(data => {
      if (data.ready) return resolve();
      const asked = waiting.get(data.id);
      waiting.delete(data.id);
      if (data.fault) (asked ? asked.refuse : refuse)(new Error(data.fault)); else asked.resolve(data);
    });
    worker.tell({ module: bytesOf(packed), template });
  });
}

function begin() {
  if (worker) worker.end();
  for (const { refuse } of waiting.values()) refuse(new Error("stopped"));
  waiting = new Map();
  isReady = started(startApart).catch(() => { worker.end(); return started(startHere); }).catch(fault => {
    throw new Error(`this browser does not run the module, which has a ${made} (${fault.message})`);
  });
  isReady.catch(() => {});
}

async function ask(task, content, more = {}) {
  await isReady;
  return new Promise((resolve, refuse) => {
    const id = ++serial;
    waiting.set(id, { resolve, refuse });
    worker.tell({ id, task, text: content, title: isSample() ? sample.name : "A play of your own", spot, ...more });
  });
}

// ---- doing a task

// What is asked of the worker for this kind of text.
function asked(what) {
  if (what === "transcript") return "check";
  if (what === "requests") return "apply";
  return task === "check" ? "check a play" : task;
}

// Shows which tasks there are for this kind of text, and which is done.
function drawTabs(what) {
  const only = { transcript: "check", requests: "play" }[what];
  for (const tab of document.querySelectorAll("[role=tab]")) {
    const isChosen = tab.dataset.task === (only || task);
    tab.setAttribute("aria-selected", String(isChosen));
    tab.tabIndex = isChosen ? 0 : -1;
    tab.disabled = Boolean(only) && tab.dataset.task !== only;
    if (isChosen) by("result").setAttribute("aria-labelledby", tab.id);
  }
  by("tab-play").textContent = what === "requests" ? "Apply" : "Play";
}

async function findMarks(ended, what) {
  const isLive = !long && by("text").value.length <= MOST_LIVE, found = what === "play" && isLive ? await ask("marks", text()) : { expected: null, refused: [] };
  if (ended.errors) return new Map([badMark(ended.errors, found.expected)].filter(Boolean));
  return refusedMarks(found.refused);
}

// Shows for how long something has been running, from a while on.
function beginBusy(doing) {
  const begun = performance.now();
  return setInterval(() => {
    const seconds = (performance.now() - begun) / 1000;
    by("busy").hidden = seconds < LATE / 1000;
    by("busy-what").textContent = `${doing}: ${seconds.toFixed(1)} s`;
  }, 100);
}

// Does this with each of these parts, whose layout it changes, as long as that is wanted. After a while it lets the page do what waits, such as a click.
async function inTurns(parts, change, isWanted) {
  let begun = performance.now();
  for (const part of parts) {
    if (!isWanted()) return;
    change(part);
    // This has the browser lay the part out now, and not all parts at once later.
    if (by("result").scrollHeight && performance.now() - begun < TURN) continue;
    await nextTurn();
    begun = performance.now();
  }
}

// Shows a result: first all but its parts, then these.
async function fill(result, isWanted) {
  const made = document.createElement("template");
  made.innerHTML = result;
  const parts = [...made.content.querySelectorAll(".part")].map(part => ({ part, into: part.parentNode }));
  for (const { part } of parts) part.remove();
  by("result").replaceChildren(made.content);
  by("result").scrollTop = 0;
  await inTurns(parts, ({ part, into }) => into.append(part), isWanted);
}

// Shows all events of the explanation, or only those that change something.
function filterEvents(all) {
  showsAll = all;
  return inTurns(document.querySelectorAll("#events .part"), part => part.classList.toggle("brief", !showsAll), () => showsAll === all);
}

// Does the task with the text, and shows what comes of it.
async function perform() {
  const mine = ++round, what = kind(), doing = asked(what), begun = performance.now(), busy = beginBusy(doing);
  hasRun = false;
  drawTabs(what);
  by("as-it-was")?.toggleAttribute("hidden", isSample());
  try {
    const content = text(), ended = await ask(doing, content);
    if (mine !== round) return;
    performed = content;
    if (ended.transcript) transcript = ended.transcript.output;
    by("result").className = ended.page ? "drawing" : "";
    await fill(shownOf(doing, ended), () => mine === round);
    if (mine !== round) return;
    marks = await findMarks(ended, what);
    if (mine !== round) return;
    hasRun = !ended.errors;
    tellStatus(doing, ended, begun);
    markRows();
    showAddress();
  } catch (thrown) {
    if (mine !== round) return;
    by("status").textContent = thrown.message === "stopped" ? "Stopped." : `This cannot be run here: ${thrown.message}`;
    by("result").innerHTML = "";
  } finally {
    clearInterval(busy);
    if (mine === round) by("busy").hidden = true;
  }
  if (document.activeElement !== by("text")) for (const [line] of [...marks].slice(0, 1)) show(line);
  drawRows();
  say();
}

// Does the task once more with the text of which the beginning of the result is shown, and saves all that it writes.
async function save(task) {
  const mine = round, busy = beginBusy(`the whole output of ${task}`);
  try {
    const { whole } = await ask("whole", performed, { of: task }), saved = URL.createObjectURL(whole);
    Object.assign(document.createElement("a"), { href: saved, download: `dsr-${task.replace(/\W+/g, "-")}.txt` }).click();
    setTimeout(() => URL.revokeObjectURL(saved), SAVED);
  } catch (thrown) {
    if (thrown.message !== "stopped") by("status").textContent = `This cannot be saved: ${thrown.message}`;
  } finally {
    clearInterval(busy);
    if (mine === round) by("busy").hidden = true;
  }
}

function tellStatus(doing, ended, begun) {
  const named = { picture: "explain --data", "check a play": "check" }[doing] || doing;
  by("status").textContent = `dsr ${named}: status ${ended.status}, in ${ended.milliseconds.toFixed(1)} ms` +
    (ended.memory ? ` and ${(ended.memory / 2 ** 20).toFixed(0)} MiB` : "") + `; shown after ${(performance.now() - begun).toFixed(0)} ms`;
}

// ---- what the reader is at, in the text, the explanation and the picture

// Marks the rows of the explanation that are of the spot, and gives the first.
function markRows() {
  const isHere = row => spot.line && (spot.event === null ? Number(row.dataset.line) === spot.line : Number(row.dataset.event) === spot.event);
  let first = null;
  for (const row of document.querySelectorAll("#events .event[data-line]")) {
    const here = Boolean(isHere(row));
    row.classList.toggle("here", here);
    if (here) first = first || row;
  }
  return first;
}

// The reader is at this line and event; `from` is where that was said, which is not moved.
function goToSpot(line, event, from) {
  spot = { line, event };
  drawRows();
  const row = markRows(), frame = document.querySelector("#result iframe");
  if (from !== "text") show(line);
  if (from !== "events" && row && isWide.matches) row.scrollIntoView({ block: "nearest" });
  say();
  if (from !== "picture" && frame) {
    if (!isDrawn(line, event)) return perform();
    frame.contentWindow.postMessage(event === null ? { line } : { event }, "*");
  }
  showAddress();
}

function goToRow(row) {
  for (const other of document.querySelectorAll("#events [tabindex='0']")) other.tabIndex = -1;
  row.tabIndex = 0;
  row.focus();
  goToSpot(Number(row.dataset.line), Number(row.dataset.event), "events");
}

function stepThroughRows(event) {
  const row = event.target.closest(".event[data-line]"), steps = { ArrowDown: 1, ArrowUp: -1 };
  if (!row) return;
  if (steps[event.key]) {
    const rows = [...document.querySelectorAll("#events .event[data-line]")].filter(other => !other.matches(".brief .dull:not(.here)"));
    const next = rows[rows.indexOf(row) + steps[event.key]];
    event.preventDefault();
    if (next) goToRow(next);
  } else if (event.key === "Enter" && event.target === row) {
    event.preventDefault();
    goTo(Number(row.dataset.line));
  } else if (event.key === "p" && !event.ctrlKey && !event.metaKey && !event.altKey) {
    showPicture(Number(row.dataset.event), Number(row.dataset.line));
  }
}

function showPicture(event, line) {
  spot = { line, event };
  choose("picture");
}

// Draws the stretch of the run that has this event.
function drawAt(event) {
  spot = { line: 0, event };
  perform();
}

function choose(wanted) {
  task = wanted;
  perform();
}

// Goes to this event in the explanation.
async function explain(event) {
  if (task !== "explain" || !by("events")) {
    task = "explain";
    await perform();
  }
  const row = document.querySelector(`#events [data-event="${event}"]`);
  if (row) goToRow(row);
}

// What the picture tells of its cursor.
function hearPicture({ data, source }) {
  const frame = document.querySelector("#result iframe");
  if (!frame || source !== frame.contentWindow || !data) return;
  if (Number.isInteger(data.line)) goToSpot(data.line, data.event, "picture");
  if (Number.isInteger(data.draw)) drawAt(data.draw);
  if (data.copy) copyAddress();
  if (data.explain && spot.event !== null) explain(spot.event);
}

// ---- what is chosen, opened and typed

const inline = told => escaped(told).replace(/`([^`]*)`/g, "<code>$1</code>");

function tellSample() {
  const tries = (TRIES[sample.name] || []).map(({ told }, at) => `<button class="try" data-try="${at}">${escaped(told)}</button>`).join("");
  const title = `<p id="as-it-was" class="soft" hidden>In ${sample.group === "Attacks" ? "the attack" : "the text"} as it was:</p>`;
  by("told").innerHTML = title + sample.told.map(told => `<p>${inline(told).replace(/^([^:.]{1,16}):/, "<b>$1</b>:")}</p>`).join("") + `<div>Change it: ${tries || "in the lines below"} <button class="try" id="reset">as it was</button></div>`;
}

function chooseSample(index) {
  sample = samples[index];
  by("samples").value = String(index);
  put(sample.text);
  tellSample();
}

function tryIt({ old, to, told }) {
  put(sample.text.replace(old, () => to));
  const at = sample.text.indexOf(old), line = sample.text.slice(0, at).split("\n").length;
  spot = { line, event: null };
  by("why").textContent = `Line ${line} is changed: ${told}.`;
  show(line);
  perform();
}

function own(told) {
  sample = null;
  by("samples").value = "";
  by("told").innerHTML = `<p>${escaped(told)}</p>`;
}

async function openBlob(blob, name) {
  own(name);
  await putLong(await blob);
  // an explanation of a million events takes long
  if (long && task === "explain") task = "play";
  perform();
}

// A text that is too long for the editor is no text of the editor's.
function takePasted(event) {
  const given = event.clipboardData || event.dataTransfer, pasted = given.getData("text/plain"), file = given.files[0];
  if (!file && pasted.length <= MOST_EDITED) return;
  event.preventDefault();
  openBlob(file || blobOf(pasted), file ? file.name : "What was pasted");
}

function fillSamples() {
  let group = null;
  samples.forEach((sample, index) => {
    if (!group || group.label !== sample.group) {
      group = document.createElement("optgroup");
      group.label = sample.group;
      by("samples").append(group);
    }
    group.append(new Option(sample.name.replace(/^why-/, "").replace(/-/g, " "), index));
  });
  const fit = () => { by("samples").size = isWide.matches ? 7 : 1; };
  isWide.addEventListener("change", fit);
  fit();
}

function editTranscript() {
  own("The transcript of the play. Change a step: from which line on is it no run?");
  put(transcript);
  perform();
}

// ---- listening

function onClick(event) {
  const { target } = event, picture = target.closest("[data-picture]"), line = target.closest("a[data-line]"), row = target.closest(".event[data-line]");
  const explained = target.closest("[data-explain]");
  const aTry = target.closest("[data-try]"), edit = target.closest("#edit"), saved = target.closest("[data-save]");
  if (picture || line || explained) event.preventDefault();
  if (explained) explain(Number(explained.dataset.explain));
  if (picture) {
    showPicture(Number(picture.dataset.picture), Number(row.dataset.line));
  } else if (line) {
    if (row) goToRow(row);
    goTo(Number(line.dataset.line));
    say();
  } else if (row && !String(getSelection())) {
    goToRow(row);
  }
  if (aTry) tryIt(TRIES[sample.name][Number(aTry.dataset.try)]);
  if (edit) editTranscript();
  if (saved) save(saved.dataset.save);
  if (target.closest("#reset")) {
    put(sample.text);
    perform();
  }
}

function onTab(event) {
  const tabs = [...document.querySelectorAll("[role=tab]")].filter(tab => !tab.disabled), at = tabs.indexOf(event.target), steps = { ArrowRight: 1, ArrowLeft: -1 };
  if (at < 0 || !steps[event.key]) return;
  const next = tabs[(at + steps[event.key] + tabs.length) % tabs.length];
  next.focus();
  choose(next.dataset.task);
}

function onCaret(event) {
  drawRows();
  if (event.type === "scroll") return;
  say();
  const line = lineAtCaret();
  if (line !== spot.line) goToSpot(line, null, "text");
}

function listen() {
  by("samples").addEventListener("change", () => { chooseSample(Number(by("samples").value)); perform(); });
  by("open").addEventListener("click", () => by("file").click());
  by("file").addEventListener("change", () => { const [file] = by("file").files; by("file").value = ""; if (file) openBlob(file, file.name); });
  by("text").addEventListener("input", () => {
    clearTimeout(soon);
    drawRows();
    if (by("text").value.length <= MOST_LIVE) soon = setTimeout(perform, PAUSE);
  });
  for (const type of ["paste", "drop"]) by("text").addEventListener(type, takePasted);
  for (const type of ["scroll", "click", "keyup"]) by("text").addEventListener(type, onCaret);
  new ResizeObserver(drawRows).observe(by("text"));
  for (const tab of document.querySelectorAll("[role=tab]")) tab.addEventListener("click", () => choose(tab.dataset.task));
  document.querySelector("[role=tablist]").addEventListener("keydown", onTab);
  by("result").addEventListener("keydown", stepThroughRows);
  by("result").addEventListener("change", event => {
    if (event.target.id === "every") filterEvents(event.target.checked);
  });
  by("stop").addEventListener("click", () => { round++; begin(); by("busy").hidden = true; by("status").textContent = "Stopped."; });
  by("copy").addEventListener("click", copyAddress);
  document.addEventListener("click", onClick);
  document.addEventListener("keydown", event => { if (event.key === "F8") { event.preventDefault(); goToNextMark(); } });
  window.addEventListener("message", hearPicture);
  window.addEventListener("hashchange", openAddress);
}

// Opens what the address says, or else the first attack, explained.
async function openAddress() {
  if (location.hash === shownAddress && round) return;
  let told = null, said = "";
  try {
    told = await read(location.hash);
  } catch (fault) {
    said = `The address has no text that can be read (${fault.message}).`;
  }
  const index = told && told.name ? samples.findIndex(({ name }) => name === told.name) : 0;
  if (told && told.content !== undefined) {
    own("A text from the address of the page.");
    await putLong(told.content);
  } else {
    chooseSample(Math.max(0, index));
  }
  if (index < 0) said = `There is no text of the name ${told.name}.`;
  task = told && TASKS.includes(told.task) ? told.task : "explain";
  if (told && told.event !== null) spot = { line: 0, event: told.event };
  await perform();
  const row = spot.event !== null && document.querySelector(`#events [data-event="${spot.event}"]`);
  if (row) goToSpot(Number(row.dataset.line), spot.event, "address");
  if (said) by("why").textContent = said;
}

by("made").textContent = made;
by("count").textContent = samples.filter(({ group }) => group === "Attacks").length;
fillSamples();
listen();
begin();
openAddress();

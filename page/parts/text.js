"use strict";
// The text: a text area, and behind it rows with the numbers of the lines and with marks.
const by = id => document.getElementById(id);
const escaped = text => text.replace(/&/g, "&amp;").replace(/</g, "&lt;").replace(/"/g, "&quot;");
const ROW = 20, ABOVE = 6, BESIDE = 60;
// Up to how many letters a text is run as it is edited, and up to how many it can be edited; how many are shown of a longer one, and encoded at once.
const MOST_LIVE = 200_000, MOST_EDITED = 300_000, MOST_BEGUN = 20_000, MOST_ENCODED = 1 << 20;

// A text that is too long for the editor, which shows the beginning of it: a file, or what was pasted.
let long = null;
// By lines: what is wrong with them, or why their events are refused. A mark is { kind, text }, and one of a bad line may have a column.
let marks = new Map();
// What the reader is at: a line of the text, and an event of that line; 0 and null for none.
let spot = { line: 0, event: null };

const text = () => long || by("text").value;

// What is left to do after what waits already, such as a click.
const turns = new MessageChannel(), left = [];
turns.port1.onmessage = () => left.shift()();
const nextTurn = () => new Promise(resolve => { left.push(resolve); turns.port2.postMessage(null); });

// The bytes of a text. A long one is encoded slice by slice, none of which ends between the two halves of a letter.
async function blobOf(content) {
  const slices = [];
  for (let at = 0, end; at < content.length; at = end) {
    end = at + MOST_ENCODED;
    if (/[\ud800-\udbff]/.test(content[end - 1])) end++;
    slices.push(new Blob([content.slice(at, end)]));
    await nextTurn();
  }
  return new Blob(slices);
}
const lineAtCaret = () => by("text").value.slice(0, by("text").selectionStart).split("\n").length;

// What the text is: by its header, or by its first line.
function kind() {
  const begun = by("text").value.slice(0, 20);
  return begun.startsWith("dsr-transcript") ? "transcript" : /^c\d/.test(begun) ? "requests" : "play";
}

function drawRows() {
  const pane = by("text"), lines = pane.value.split("\n").length, caret = lineAtCaret();
  const first = Math.max(1, Math.floor((pane.scrollTop - ABOVE) / ROW)), last = Math.min(lines, first + Math.ceil(pane.clientHeight / ROW) + 1);
  let rows = "";
  for (let line = first; line <= last; line++) {
    const mark = marks.get(line), classes = [mark ? mark.kind : "", line === spot.line ? "spot" : "", line === caret ? "caret" : ""].join(" ");
    const column = mark && mark.column ? `<span class="column" style="left:calc(${BESIDE - pane.scrollLeft}px + ${mark.column - 1}ch);width:${mark.wide}ch"></span>` : "";
    rows += `<div class="${classes}" style="top:${ABOVE + ROW * (line - 1) - pane.scrollTop}px">${column}<span class="nr">${line}</span></div>`;
  }
  by("rows").innerHTML = rows;
}

// Brings the line into sight.
function show(line) {
  const pane = by("text"), top = ABOVE + ROW * (line - 1);
  if (line && (top < pane.scrollTop || top + 2 * ROW > pane.scrollTop + pane.clientHeight)) pane.scrollTop = Math.max(0, top - pane.clientHeight / 3);
}

// Goes to the line: it is selected, and the reader may type.
function goTo(line) {
  const pane = by("text"), lines = pane.value.split("\n"), from = lines.slice(0, line - 1).reduce((sum, text) => sum + text.length + 1, 0);
  pane.focus();
  pane.setSelectionRange(from, from + (lines[line - 1] || "").length);
  show(line);
  drawRows();
}

// Puts another text into the editor.
function put(content) {
  long = null;
  by("text").readOnly = false;
  by("text").value = content;
  by("text").scrollTop = by("text").scrollLeft = 0;
  by("text").setSelectionRange(0, 0);
  marks = new Map();
  spot = { line: 0, event: null };
  drawRows();
}

// Puts a file there, or what was pasted, which may be long.
async function putLong(blob) {
  const isLong = blob.size > MOST_EDITED;
  put(await (isLong ? blob.slice(0, MOST_BEGUN) : blob).text());
  if (!isLong) return;
  long = blob;
  by("text").readOnly = true;
}

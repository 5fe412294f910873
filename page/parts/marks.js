"use strict";
// What is wrong with the text: marks at its lines, and words below it.

const linkTo = line => `<a href="#" data-line="${line}">line ${line}</a>`;

// The mark of a line that is bad, and the line, by what the program told of it, and by what `explain` says is expected; null if the fault has no line.
function badMark(errors, expected) {
  const found = errors.match(/line (\d+)/), line = found ? Number(found[1]) : /shape/.test(errors) ? 1 : 0;
  if (!line) return null;
  const told = errors.trim().replace(/^dsr: /, "").replace(/ (in|at) line \d+$/, "");
  const column = expected && expected[0] === line ? expected[1] : 0, length = (by("text").value.split("\n")[line - 1] || "").length;
  const mark = { kind: "bad", text: told + (column ? `, column ${column}: expected ${expected[2]}` : "") + ".", column, wide: Math.max(1, length - column + 1) };
  return [line, mark];
}

// The marks of lines with refused events, of which each has the line, the event, its two ends, the refusal and why.
function refusedMarks(refused) {
  const found = new Map();
  for (const { line, event, ends, outcome, why } of refused) {
    const mark = found.get(line) || { kind: "refused", events: [] };
    mark.events.push(`event ${event}, ${ends.join(" and ")}: refused, ${outcome}${why.map(because => `: ${because}`).join("")}`);
    found.set(line, mark);
  }
  for (const mark of found.values()) mark.text = mark.events.slice(0, 3).join("; ") + (mark.events.length > 3 ? `; and ${mark.events.length - 3} more` : "") + ".";
  return found;
}

// Says what is wrong with the text, first what is at the line where the reader is.
function say() {
  const why = by("why"), all = [...marks].sort(([a], [b]) => a - b), here = spot.line || lineAtCaret();
  const [line, mark] = all.find(([line]) => line === here) || all[0] || [0, null];
  why.className = mark ? mark.kind : "fine";
  if (mark) {
    const more = all.length > 1 ? ` <span class="soft">Refused events in ${all.length} lines; what follows the first may come of it. F8 goes to the next.</span>` : "";
    why.innerHTML = `${linkTo(line)}: ${escaped(mark.text)}${more}`;
  } else if (long) {
    why.textContent = `${long.size.toLocaleString("en")} bytes, of which the first are shown; they are not edited here.`;
  } else {
    why.textContent = hasRun && kind() === "play" ? "No line is bad, and no event is refused." : "";
  }
}

// Goes to the next line with a mark.
function goToNextMark() {
  const lines = [...marks.keys()].sort((a, b) => a - b), caret = lineAtCaret();
  if (lines.length) goTo(lines.find(line => line > caret) || lines[0]);
  say();
}

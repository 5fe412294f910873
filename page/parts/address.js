"use strict";
// Addresses: behind `#` stands a text, then perhaps what is done with it, then perhaps an event: `#two-faced-sender/picture/event-12`. The text is a
// sample by its name, or stands there itself: compressed, `#z:...`, or plain, `#t:...` with percent signs.
const MOST_BYTES_OF_A_LINK = 17_000_000, MOST_SHOWN_IN_ADDRESS = 6000;
const TASKS = ["play", "explain", "check", "picture"];

async function through(bytes, stream, most = Infinity) {
  const reader = new Blob([bytes]).stream().pipeThrough(stream).getReader(), found = [];
  for (let size = 0; ;) {
    const { done, value } = await reader.read();
    if (done) return new Blob(found);
    if ((size += value.length) > most) throw new Error("the text in this address is too long");
    found.push(value);
  }
}

const letters = bytes => Array.from({ length: Math.ceil(bytes.length / 8192) }, (_, at) => String.fromCharCode(...bytes.subarray(8192 * at, 8192 * (at + 1)))).join("");

// The bytes that stand in base64.
function bytesOf(packed) {
  const letters = atob(packed), bytes = new Uint8Array(letters.length);
  for (let at = 0; at < letters.length; at++) bytes[at] = letters.charCodeAt(at);
  return bytes;
}

// A text as it stands in an address.
async function spelled(content) {
  if (typeof CompressionStream === "undefined") return `t:${encodeURIComponent(content)}`;
  const packed = await through(new TextEncoder().encode(content), new CompressionStream("deflate-raw"));
  return `z:${btoa(letters(new Uint8Array(await packed.arrayBuffer()))).replace(/\+/g, "-").replace(/\//g, "_").replace(/=+$/, "")}`;
}

// What stands behind `#`: { name } or { content }, with a task and an event; null if it is no address of a text.
async function read(hash) {
  const found = hash.match(/^#(z:[\w-]*|t:[^/]*|[\w-]+)(?:\/(play|explain|check|picture))?(?:\/event-(\d+))?$/);
  if (!found) return null;
  const [, told, task, event] = found, more = { task, event: event === undefined ? null : Number(event) };
  if (told.startsWith("t:")) return { content: new Blob([decodeURIComponent(told.slice(2))]), ...more };
  if (!told.startsWith("z:")) return { name: told, ...more };
  const packed = bytesOf(told.slice(2).replace(/-/g, "+").replace(/_/g, "/"));
  return { content: await through(packed, new DecompressionStream("deflate-raw"), MOST_BYTES_OF_A_LINK), ...more };
}

// The address of what is shown now.
async function addressNow() {
  const what = isSample() ? sample.name : long ? null : await spelled(by("text").value);
  return what === null ? null : `#${what}/${task}${spot.event === null ? "" : `/event-${spot.event}`}`;
}

let shownAddress = "", soonShown = 0;
const SOON = 150;

function showAddress() {
  clearTimeout(soonShown);
  soonShown = setTimeout(showAddressNow, SOON);
}

// Has the browser show the address, if it is not long.
async function showAddressNow() {
  const mine = round, address = await addressNow();
  if (mine !== round || address === shownAddress) return;
  shownAddress = address || "";
  by("address").textContent = shownAddress.length > 60 ? `${shownAddress.slice(0, 57)}…` : shownAddress;
  try {
    history.replaceState(null, "", address && address.length <= MOST_SHOWN_IN_ADDRESS ? address : "#");
  } catch {
    // some browsers let no file change its address
  }
}

async function copyAddress() {
  const address = await addressNow(), button = by("copy");
  try {
    if (!address) throw new Error();
    await navigator.clipboard.writeText(location.href.replace(/#.*|$/, () => address));
    button.textContent = "Copied";
  } catch {
    button.textContent = address ? "Not allowed here" : "Too long for a link";
  }
  setTimeout(() => { button.textContent = "Copy link"; }, 1800);
}

#!/usr/bin/env node
"use strict";
// Runs the module of the page page/dsr.html in node, as ./dsr runs the program: tools/page_node.js [--module FILE] [--seconds] TASK [WORD ..] < TEXT. It runs
// another module with --module, and with --seconds it tells on standard error what the task took. If the module has a memory of 64 bits, node before 24
// wants --experimental-wasm-memory64.
const fs = require("fs"), path = require("path"), zlib = require("zlib"), top = path.join(__dirname, "..");
const dsr = require(`${top}/page/parts/host.js`);

function moduleOfPage() {
  const [, packed] = fs.readFileSync(`${top}/page/dsr.html`, "utf8").match(/const packed = "([A-Za-z0-9+/=]*)"/);
  return zlib.gunzipSync(Buffer.from(packed, "base64"));
}

const words = process.argv.slice(2), own = words[0] === "--module" ? words.splice(0, 2)[1] : null;
const tellsSeconds = words[0] === "--seconds" && words.shift() !== undefined, task = words.join(" ");
if (!dsr.TASKS.includes(task)) {
  console.error(`tools/page_node.js: the tasks are ${dsr.TASKS.join(", ")}`);
  process.exit(2);
}
const compiled = new WebAssembly.Module(own ? fs.readFileSync(own) : moduleOfPage()), text = fs.readFileSync(0), begun = performance.now();
const ended = dsr.run(compiled, task, text), took = (performance.now() - begun) / 1000;
for (const [stream, bytes] of [[1, ended.output], [2, ended.errors]]) for (let at = 0; at < bytes.length;) at += fs.writeSync(stream, bytes, at);
if (tellsSeconds) console.error(took);
process.exitCode = ended.status;

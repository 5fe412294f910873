#!/usr/bin/env node
"use strict";
// Drives the page page/dsr.html in browsers without a window, off line: tests/browsers.js FOLDER [chromium] [firefox]. It is no part of ./test, as it needs
// the browsers, and node from 22 on, or 20.
//
// Each attack and each play that is wrong in one line is chosen and played, explained, checked and drawn. What the page shows must be the files beside the play:
// its report NAME.out, its explanation NAME.explained, its transcript NAME.transcript; the picture must have as many events as the report counts.
// Then the page is gone through as a reader would. Screenshots, 1280 and 400 pixels wide, light and dark, are left in FOLDER for somebody to look at.
// With the word `long` it runs texts at the limits, goes through the picture of one, and says for how long at most the page did not answer; it must be less than
// 100 ms.
//
// The last line is `N passed, M failed, K skipped`.
const fs = require("fs"), path = require("path"), os = require("os"), { spawn, spawnSync } = require("child_process"), assert = require("assert"), zlib = require("zlib");

if (typeof WebSocket === "undefined" && !process.execArgv.includes("--experimental-websocket")) {
  process.exit(spawnSync(process.execPath, ["--experimental-websocket", "--experimental-wasm-memory64", ...process.argv.slice(1)], { stdio: "inherit" }).status);
}

const TOP = path.join(__dirname, ".."), ADDRESS = `file://${path.resolve(TOP, "page/dsr.html")}`;
const pause = ms => new Promise(resolve => setTimeout(resolve, ms));
const textOf = name => fs.existsSync(name) ? fs.readFileSync(name, "utf8") : null;

// ---- browsers: each opens addresses, evaluates expressions, takes screenshots

class Chromium {
  static async start(room) {
    const browser = new Chromium(), words = ["--headless=new", "--no-sandbox", "--disable-gpu", "--hide-scrollbars", "--remote-debugging-pipe", `--user-data-dir=${room}`, "--no-first-run"];
    const program = ["chromium", "chromium-browser", "google-chrome"].find(name => spawnSync("which", [name]).status === 0);
    if (!program) return null;
    browser.waiting = new Map();
    browser.said = [];
    browser.child = spawn(program, [...words, "about:blank"], { stdio: ["ignore", "ignore", "ignore", "pipe", "pipe"] });
    let rest = "";
    browser.child.stdio[4].on("data", data => {
      const parts = (rest + data).split("\0");
      rest = parts.pop();
      for (const part of parts) browser.hear(JSON.parse(part));
    });
    await browser.openTab();
    return browser;
  }

  hear(message) {
    if (message.method === "Target.attachedToTarget" && message.params.targetInfo.type === "iframe") this.frame = message.params.sessionId;
    if (!message.id) {
      if (/exceptionThrown|entryAdded|consoleAPICalled/.test(message.method)) this.said.push(JSON.stringify(message.params).slice(0, 400));
      return;
    }
    const { resolve, refuse } = this.waiting.get(message.id);
    this.waiting.delete(message.id);
    if (message.error) refuse(new Error(JSON.stringify(message.error))); else resolve(message.result);
  }

  send(method, params = {}, sessionId = this.session) {
    this.serial = (this.serial || 0) + 1;
    return new Promise((resolve, refuse) => {
      this.waiting.set(this.serial, { resolve, refuse });
      this.child.stdio[3].write(JSON.stringify({ id: this.serial, method, params, sessionId }) + "\0");
    });
  }

  async openTab() {
    this.name = (await this.send("Browser.getVersion")).product;
    const { targetId } = await this.send("Target.createTarget", { url: "about:blank" });
    this.session = (await this.send("Target.attachToTarget", { targetId, flatten: true })).sessionId;
    for (const it of ["Page", "Runtime", "Log", "Network"]) await this.send(`${it}.enable`);
    await this.send("Target.setAutoAttach", { autoAttach: true, waitForDebuggerOnStart: false, flatten: true });
    await this.send("Network.emulateNetworkConditions", { offline: true, latency: 0, downloadThroughput: 0, uploadThroughput: 0 });
  }

  async open(address) {
    await this.send("Page.navigate", { url: "about:blank" });
    await this.send("Page.navigate", { url: address });
  }

  // In the picture, which is a page of another origin, and so another target.
  async frameValue(expression) { return this.frame === undefined ? null : this.value(expression, this.frame); }

  async value(expression, session = this.session) {
    const { result, exceptionDetails } = await this.send("Runtime.evaluate", { expression, awaitPromise: true, returnByValue: true }, session);
    if (exceptionDetails) throw new Error(JSON.stringify(exceptionDetails).slice(0, 500));
    return result.value;
  }

  async look(width, height, scheme) {
    await this.send("Emulation.setDeviceMetricsOverride", { width, height, deviceScaleFactor: 1, mobile: false });
    await this.send("Emulation.setEmulatedMedia", { features: [{ name: "prefers-color-scheme", value: scheme }] });
  }

  async shot() { return (await this.send("Page.captureScreenshot", { format: "png" })).data; }

  async key(key, code = key) {
    for (const type of ["rawKeyDown", "keyUp"]) await this.send("Input.dispatchKeyEvent", { type, key, code, windowsVirtualKeyCode: { Tab: 9, Enter: 13, ArrowDown: 40, ArrowRight: 39, F8: 119 }[key] || 0 });
  }

  async end() {
    this.session = undefined;
    await Promise.race([this.send("Browser.close").catch(() => {}), pause(2000)]);
    this.child.kill();
  }
}

class Firefox {
  static async start(room, scheme = "light") {
    const browser = new Firefox(), port = 9300 + process.pid % 500, program = ["firefox-esr", "firefox"].find(name => spawnSync("which", [name]).status === 0);
    if (!program) return null;
    const pref = (name, value) => `user_pref(${JSON.stringify(name)}, ${JSON.stringify(value)});\n`;
    fs.writeFileSync(`${room}/user.js`, pref("layout.css.prefers-color-scheme.content-override", scheme === "dark" ? 0 : 1) + pref("network.online", false) +
      pref("browser.aboutwelcome.enabled", false) + pref("datareporting.policy.dataSubmissionEnabled", false));
    browser.child = spawn(program, ["--headless", "--no-remote", "--profile", room, `--remote-debugging-port=${port}`, "about:blank"], { env: { ...process.env, HOME: room }, stdio: "ignore" });
    browser.waiting = new Map();
    browser.said = [];
    browser.room = room;
    browser.socket = await Firefox.connect(port);
    browser.socket.onmessage = ({ data }) => {
      const message = JSON.parse(data), found = browser.waiting.get(message.id);
      if (message.method === "log.entryAdded" && message.params.level === "error") browser.said.push(JSON.stringify(message.params).slice(0, 400));
      if (found) { browser.waiting.delete(message.id); found(message); }
    };
    const { capabilities } = (await browser.send("session.new", { capabilities: {} })).result;
    browser.name = `Firefox/${capabilities.browserVersion}`;
    await browser.send("session.subscribe", { events: ["log.entryAdded"] });
    browser.context = (await browser.send("browsingContext.getTree", {})).result.contexts[0].context;
    return browser;
  }

  static async connect(port) {
    for (let at = 0; at < 120; at++) {
      try {
        const socket = new WebSocket(`ws://127.0.0.1:${port}/session`);
        await new Promise((resolve, refuse) => { socket.onopen = resolve; socket.onerror = refuse; });
        return socket;
      } catch { await pause(500); }
    }
    throw new Error("Firefox does not answer");
  }

  send(method, params) {
    this.serial = (this.serial || 0) + 1;
    return new Promise(resolve => { this.waiting.set(this.serial, resolve); this.socket.send(JSON.stringify({ id: this.serial, method, params })); });
  }

  async open(address) {
    await this.send("browsingContext.navigate", { context: this.context, url: "about:blank", wait: "complete" });
    await this.send("browsingContext.navigate", { context: this.context, url: address, wait: "complete" });
  }

  // The value goes as JSON, since the protocol has its own form of values.
  // In the picture, which is a page of another origin.
  async frameValue(expression) {
    const [{ children }] = (await this.send("browsingContext.getTree", { root: this.context })).result.contexts;
    return this.value(expression, children.find(({ url }) => url.startsWith("blob:")).context);
  }

  async value(expression, context = this.context) {
    const told = await this.send("script.evaluate", { expression: `(async () => JSON.stringify(await (${expression})))()`, target: { context }, awaitPromise: true });
    if (!told.result || told.result.type !== "success") throw new Error(JSON.stringify(told).slice(0, 500));
    return told.result.result.value === undefined ? undefined : JSON.parse(told.result.result.value);
  }

  // The scheme is that of the profile: another one is another browser.
  async look(width, height) { await this.send("browsingContext.setViewport", { context: this.context, viewport: { width, height } }); }

  async shot() { return (await this.send("browsingContext.captureScreenshot", { context: this.context })).result.data; }

  async key(key) {
    const value = { Tab: "\uE004", Enter: "\uE007", ArrowDown: "\uE015", ArrowRight: "\uE014", F8: "\uE038" }[key] || key;
    await this.send("input.performActions", { context: this.context, actions: [{ type: "key", id: "keys", actions: [{ type: "keyDown", value }, { type: "keyUp", value }] }] });
  }

  async end() {
    await Promise.race([this.send("browser.close", {}), pause(2000)]);
    this.child.kill();
    await pause(500);
  }
}

// ---- the page, as the driver sees it

class Page {
  constructor(browser) { this.browser = browser; }

  async until(expression, most = 60_000) {
    for (let at = 0; at < most; at += 50) {
      if (await this.browser.value(expression)) return;
      await pause(50);
    }
    throw new Error(`not within ${most} ms: ${expression}`);
  }

  ready() { return this.until(`/status \\d/.test((document.getElementById("status") || {}).textContent || "")`); }

  // Does something with the page, and waits for what comes of it.
  async after(expression) {
    await this.browser.value(`(document.getElementById("status").textContent = "...", ${expression}, 0)`);
    await this.ready();
  }

  async open(hash = "") {
    await this.browser.open(ADDRESS + hash);
    await this.ready();
  }

  tab(name) { return this.after(`document.getElementById("tab-${name}").click()`); }

  sample(name) {
    return this.after(`((select) => { select.value = String(samples.findIndex(sample => sample.name === ${JSON.stringify(name)})); select.dispatchEvent(new Event("change")); })(document.getElementById("samples"))`);
  }

  type(content) {
    return this.after(`((pane) => { pane.value = ${content}; pane.dispatchEvent(new Event("input")); })(document.getElementById("text"))`);
  }

  pres() { return this.browser.value(`[...document.querySelectorAll("#result pre")].map(pre => pre.textContent)`); }

  // The explanation as the program wrote it.
  explained() {
    return this.browser.value(`[...document.querySelectorAll("#events .event")].map(row => row.dataset.line ? row.querySelector("a").textContent + ": " + row.querySelector("span").textContent
      + [...row.querySelectorAll(".note")].map(note => "\\n    " + note.textContent).join("") : row.firstChild.textContent + [...row.querySelectorAll(".note")].map(note => "\\n    " + note.textContent).join("")).join("\\n") + "\\n"`);
  }

  // Waits until this holds in the picture; while that is being loaded, there may be no such page.
  async untilInPicture(expression, most = 8_000) {
    for (let at = 0; at < most; at += 50) {
      try { if (await this.browser.frameValue(expression)) return; } catch { /* not yet there */ }
      await pause(50);
    }
    throw new Error(`not within ${most} ms in the picture: ${expression}`);
  }

  async eventsOfPicture() {
    await this.until(`document.querySelector("#result iframe") !== null`);
    await this.untilInPicture(`document.getElementById("of") && document.getElementById("of").textContent !== ""`);
    return this.browser.frameValue(`document.getElementById("of").textContent`);
  }
}

// ---- checks

const counts = { passed: 0, failed: 0 };

async function check(what, body) {
  try {
    await body();
    counts.passed++;
  } catch (fault) {
    counts.failed++;
    console.log(`${what}: FAILED: ${String(fault.message).slice(0, 600)}`);
  }
}

// The plays by their names in the page, each with its path.
function plays() {
  const of = (folder, before) => fs.readdirSync(`${TOP}/examples/${folder}`).filter(name => name.endsWith(".play")).map(name => [before + name.slice(0, -5), `${TOP}/examples/${folder}/${name.slice(0, -5)}`]);
  return [...of("attacks", ""), ...of("why", "why-")];
}

// Each play is chosen, and each task done with it.
async function eachPlay(page) {
  for (const [name, stem] of plays()) {
    const beside = ending => textOf(`${stem}.${ending}`), what = `${page.browser.name}: ${name}`;
    await check(`${what} is played`, async () => {
      await page.sample(name);
      await page.tab("play");
      const [report] = await page.pres();
      assert.match(report, /^done \d+\nrefused \d+\n/);
      if (beside("out") !== null) assert.strictEqual(report, beside("out"));
      page.report = report;
    });
    await check(`${what} is explained`, async () => {
      await page.tab("explain");
      const told = await page.explained();
      if (beside("explained") !== null) assert.strictEqual(told, beside("explained"));
      assert.ok(told.startsWith("line 2, event 0: "));
    });
    await check(`${what} is checked`, async () => {
      await page.tab("check");
      const [verdict, transcript] = await page.pres();
      assert.match(verdict, /^run \d+\n/);
      if (beside("transcript") !== null) assert.strictEqual(transcript, beside("transcript"));
    });
    await check(`${what} is drawn`, async () => {
      await page.tab("picture");
      const [done, refused] = page.report.match(/\d+/g).map(Number);
      assert.strictEqual(await page.eventsOfPicture(), `of ${done + refused}`);
    });
  }
}

const spot = page => page.browser.value(`({ line: spot.line, event: spot.event, hash: location.hash })`);

// What a reader does besides.
async function asAReader(page) {
  const { browser } = page, said = what => `${browser.name}: ${what}`;
  await check(said("it opens with an attack that is explained"), async () => {
    await page.open();
    const told = await browser.value(`document.getElementById("told").textContent + document.getElementById("result").textContent`);
    for (const words of ["Sender r0 gives one request to r1", "decided slot 0: idle", "accepts the reply"]) assert.ok(told.includes(words), words);
  });
  await check(said("an event of the explanation leads to its line and to the picture, and back"), async () => {
    await browser.value(`document.querySelector('#events [data-event="44"] a').click()`);
    assert.deepStrictEqual(await browser.value(`[spot.line, spot.event, lineAtCaret()]`), [14, 44, 14]);
    await page.after(`document.querySelector('#events [data-event="44"] .to-picture').click()`);
    await page.eventsOfPicture();
    await page.untilInPicture(`document.getElementById("where").textContent.startsWith("Event 44, line 14")`);
    await browser.frameValue(`(document.getElementById("on").click(), 0)`);
    await page.until(`spot.event === 45`);
    await browser.value(`(document.getElementById("status").textContent = "...", 0)`);
    await browser.frameValue(`(document.getElementById("explain").click(), 0)`);
    await page.ready();
    await page.until(`(document.querySelector("#events .here") || { dataset: {} }).dataset.event === "45"`);
    await page.until(`location.hash === "#two-faced-sender/explain/event-45"`);
  });
  await check(said("a line of the play leads to its events"), async () => {
    await browser.value(`(goTo(8), document.getElementById("text").dispatchEvent(new Event("click")))`);
    assert.strictEqual(await browser.value(`document.querySelector("#events .here").dataset.line`), "8");
  });
  await check(said("an address opens its event"), async () => {
    await page.open("#misfitting-relay/picture/event-3");
    await page.eventsOfPicture();
    await page.untilInPicture(`document.getElementById("where").textContent.startsWith("Event 3,")`);
    await page.open("#forged-signatures/explain/event-2");
    assert.strictEqual((await spot(page)).event, 2);
  });
  await check(said("a bad line is marked, with its column and what was expected"), async () => {
    await page.open();
    await page.type(`samples[0].text.replace("asks c0 begin", "asks c0 begn")`);
    assert.match(await browser.value(`document.getElementById("why").textContent`), /^line 2: bad text, column 12: expected begin: a client proposes nothing/);
    assert.ok(await browser.value(`document.querySelector("#rows .bad .column") !== null`));
  });
  await check(said("a refused event is marked, with why"), async () => {
    await page.sample("two-faced-sender");
    await page.after(`document.querySelectorAll(".try")[1].click()`);
    assert.match(await browser.value(`document.getElementById("why").textContent`), /^line 7: event 13, r0 and r1: refused, E8: the signature of c0 on c0#1:write:a:9 is forged/);
    assert.ok(await browser.value(`document.querySelector("#rows .refused") !== null`));
  });
  await check(said("of a changed attack it is told how it was, and who is not answered"), async () => {
    const isTitled = () => browser.value(`!document.getElementById("as-it-was").hidden`);
    await page.sample("two-faced-sender");
    assert.strictEqual(await isTitled(), false);
    await page.after(`document.querySelectorAll(".try")[2].click()`);
    assert.strictEqual(await isTitled(), true);
    assert.ok((await browser.value(`document.querySelector("#result .short").textContent`)).includes("c0 has accepted no reply to its request 1."));
    await page.after(`document.getElementById("reset").click()`);
    assert.strictEqual(await isTitled(), false);
    assert.ok(!(await browser.value(`document.querySelector("#result .short").textContent`)).includes("has accepted no reply"));
    await page.after(`document.querySelectorAll(".try")[3].click()`);
    assert.ok((await browser.value(`document.querySelector("#result .short").textContent`)).includes("none was refused"));
  });
  await check(said("a link has the text in it"), async () => {
    const hash = await browser.value(`addressNow()`), text = await browser.value(`document.getElementById("text").value`);
    assert.match(hash, /^#z:[\w-]+\/explain/);
    await page.open(hash);
    assert.strictEqual(await browser.value(`document.getElementById("text").value`), text);
    await page.open("#t:dsr-play%201%201%200%201%20-%0Aasks%20c0%20begin%20read%20a%0A/play");
    assert.match((await page.pres())[0], /^done 1\nrefused 0\n/);
  });
  await check(said("a transcript is edited, and is no run"), async () => {
    await page.open("#two-faced-sender/check");
    await page.after(`document.getElementById("edit").click()`);
    await page.type(`document.getElementById("text").value.split("\\n").filter((_, at) => at !== 8).join("\\n")`);
    assert.match(await browser.value(`document.getElementById("why").textContent`), /^line \d+: not a run\.$/);
  });
  await check(said("requests are answered"), async () => {
    await page.sample("swaps");
    assert.strictEqual((await page.pres())[0], textOf(`${TOP}/examples/swaps.out`));
  });
}

// A play of 2,700 events, of which a picture has not all, and whose explanation is not all shown.
const LONG_TEXT = `dsr-play 1 3 1 2 -\n${"posts *\ntakes *\n".repeat(150)}`, LONG_PLAY = JSON.stringify(LONG_TEXT);

// What the page's module writes for this task, in node.
function written(task, content) {
  const { run } = require(`${TOP}/page/parts/host.js`), [, packed] = fs.readFileSync(`${TOP}/page/dsr.html`, "utf8").match(/const packed = "([A-Za-z0-9+/=]*)"/);
  return Buffer.from(run(new WebAssembly.Module(zlib.gunzipSync(Buffer.from(packed, "base64"))), task, Buffer.from(content)).output).toString();
}

// Of a long output the beginning is shown, which can be copied, and the whole is saved.
async function inParts(page) {
  const { browser } = page, said = what => `${browser.name}: ${what}`;
  await check(said("of a long explanation it is told how much is shown, and all of it is saved"), async () => {
    const whole = written("explain", LONG_TEXT), number = told => Number(told.replace(/,/g, ""));
    await page.open();
    await page.type(LONG_PLAY);
    const [shown, all] = (await browser.value(`document.querySelector("#result [data-save]").parentNode.textContent`)).match(/[\d,]+/g).map(number);
    assert.strictEqual(all, whole.length);
    assert.strictEqual(await page.explained(), whole.slice(0, shown));
    await browser.value(`(window.saved = null, HTMLAnchorElement.prototype.click = async function () { window.saved = [this.download, await (await fetch(this.href)).text()]; }, 0)`);
    await browser.value(`(document.querySelector("#result [data-save]").click(), 0)`);
    await page.until(`window.saved !== null`);
    assert.deepStrictEqual(await browser.value(`window.saved`), ["dsr-explain.txt", whole]);
  });
  await check(said("of a long explanation every event is shown, and again only those that change something"), async () => {
    for (const left of [0, 1]) {
      await browser.value(`(document.getElementById("every").click(), 0)`);
      await page.until(`[...document.querySelectorAll("#events .part")].every(part => part.classList.contains("brief") === ${left === 1})`);
    }
  });
  await check(said("a long transcript can be copied"), async () => {
    await page.tab("check");
    const [, transcript] = await page.pres();
    assert.strictEqual(transcript, written("play --transcript", LONG_TEXT));
    const copied = await browser.value(`(getSelection().selectAllChildren(document.querySelectorAll("#result pre")[1]), String(getSelection()))`);
    assert.strictEqual(copied.trimEnd(), transcript.trimEnd());
  });
}

// The picture of a longer run has a part of it, and goes to others.
async function inStretches(page) {
  const { browser } = page, are = (first, last) => `document.getElementById("shown").textContent === "This picture shows events ${first} to ${last} of 2,700."`;
  const draws = async (act, drawn, where) => {
    await browser.value(`(document.getElementById("status").textContent = "...", 0)`);
    await act();
    await page.ready();
    await page.untilInPicture(are(...drawn));
    await page.untilInPicture(`document.getElementById("where").textContent.startsWith(${JSON.stringify(where)})`);
  };
  const inFrame = act => () => browser.frameValue(`(${act}, 0)`);
  await check(`${browser.name}: a longer run is drawn in parts`, async () => {
    await page.open();
    await page.type(LONG_PLAY);
    await draws(() => browser.value(`(document.getElementById("tab-picture").click(), 0)`), ["0", "1,999"], "A part of the run");
    await draws(inFrame(`document.getElementById("later").click()`), ["800", "2,699"], "Event 2000, line 224");
    await draws(inFrame(`document.getElementById("earlier").click()`), ["200", "2,199"], "Event 799, line 90");
    await draws(() => browser.value(`(goTo(300), document.getElementById("text").dispatchEvent(new Event("click")), 0)`), ["800", "2,699"], "Event 2682, line 300");
    await draws(() => browser.value(`(showPicture(5, 2), 0)`), ["0", "1,999"], "Event 5, line 2");
    await browser.value(`(goTo(3), document.getElementById("text").dispatchEvent(new Event("click")), 0)`);
    await page.untilInPicture(`document.getElementById("where").textContent.startsWith("Event 9, line 3")`);
  });
}

// With keys alone: to the tabs, to the explanation, through its rows.
async function byKeys(page) {
  const { browser } = page;
  await check(`${browser.name}: by keys alone`, async () => {
    await page.open();
    await browser.value(`(document.activeElement.blur(), document.getElementById("tab-explain").focus(), document.getElementById("status").textContent = "...", 0)`);
    await browser.key("ArrowRight");
    await page.ready();
    assert.strictEqual(await browser.value(`task`), "check");
    await page.tab("explain");
    await browser.value(`(document.getElementById("every").focus(), 0)`);
    await browser.key("Tab");
    await browser.key("ArrowDown");
    assert.strictEqual(await browser.value(`document.activeElement.className.includes("event") && spot.event !== null`), true);
    await browser.key("Enter");
    assert.strictEqual(await browser.value(`document.activeElement.id`), "text");
  });
}

// Nothing is wider than the window.
async function fits(page, width, what) {
  await check(`${page.browser.name}: ${what} fits into ${width}`, async () => {
    assert.ok(await page.browser.value(`document.documentElement.scrollWidth`) <= width, "it is wider");
  });
}

async function shots(page, folder, scheme) {
  const { browser } = page, kind = browser instanceof Firefox ? "firefox" : "chromium";
  for (const width of [1280, 400]) {
    await browser.look(width, 800, scheme);
    const shot = async what => {
      await pause(700);
      await fits(page, width, what);
      fs.writeFileSync(`${folder}/${kind}-${scheme}-${width}-${what}.png`, Buffer.from(await browser.shot(), "base64"));
    };
    await page.open();
    await shot("1-opens");
    if (width < 860) { await browser.value(`(document.getElementById("right").scrollIntoView(), 0)`); await shot("2-explain"); }
    for (const task of ["play", "check", "picture"]) { await page.tab(task); await shot(`3-${task}`); }
    await page.open("#forged-signatures/explain/event-2");
    await shot("4-refused");
    await page.open("#late-second-value/picture/event-60");
    await page.eventsOfPicture();
    if (width < 860) await browser.value(`(document.getElementById("right").scrollIntoView(), 0)`);
    await shot("5-picture-of-an-event");
    await page.open();
    await page.type(LONG_PLAY);
    await page.tab("picture");
    await page.untilInPicture(`!document.getElementById("stretch").hidden`);
    if (width < 860) await browser.value(`(document.getElementById("right").scrollIntoView(), 0)`);
    await shot("8-part-of-a-long-run");
    await page.open();
    await page.type(`samples[0].text.replace("asks c0 begin", "asks c0 begn")`);
    await shot("6-bad-line");
    await browser.value(`(document.getElementById("limits").open = true, 0)`);
    await shot("7-limits");
    await browser.value(`(document.getElementById("limits").open = false, document.getElementById("legend").open = true, 0)`);
    await shot("8-legend");
  }
}

// ---- long texts

const MOST_EVENTS = 1_000_000, MOST_BYTES = 16_777_216;

// A play of as many events as there may be, which takes little text; and the longest transcript of such a play that may be checked, played by the page's module in node.
function longTexts() {
  const playOf = events => `dsr-play 1 1 0 1 -\n${"posts r0\ntakes r0\n".repeat(events / 2)}`;
  let transcript = "";
  for (let events = 300_000; transcript === "" || transcript.length > MOST_BYTES; events -= 20_000) transcript = written("play --transcript", playOf(events));
  return { play: playOf(MOST_EVENTS), transcript };
}

// Does this, and checks that the page could have answered a click within 100 ms all the time: a timer's gaps are the times when it could not.
async function answering({ browser }, what, body) {
  await check(`${browser.name}: ${what}`, async () => {
    await browser.value(`(window.most = 0, window.last = performance.now(), 0)`);
    await body();
    const most = Math.round(await browser.value("window.most"));
    console.log(`${browser.name}: ${what}, ${await browser.value(`document.getElementById("status").textContent`)}; not answering for at most ${most} ms`);
    assert.ok(most < 100, `the page did not answer for ${most} ms`);
  });
}

// Which events the picture says that it shows.
const drawnAre = (first, last) => `document.getElementById("shown").textContent === "This picture shows events ${first} to ${last} of 1,000,000."`;

// Through the picture of a long run, stretch by stretch.
async function throughStretches(page) {
  const { browser } = page, press = id => `document.getElementById("${id}").click()`;
  const goTo = number => `((at) => { at.value = "${number}"; at.dispatchEvent(new Event("change")); })(document.getElementById("at"))`;
  for (const [what, act, ...drawn] of [
    ["later", press("later"), "1,500", "3,499"], ["to an event", goTo(700_123), "699,600", "701,599"], ["earlier", press("earlier"), "699,000", "700,999"],
    ["to the last one", goTo(999_999), "998,100", "999,999"], ["to the first one", goTo(0), "0", "1,999"],
  ]) {
    await answering(page, `the picture, ${what}`, async () => {
      await browser.value(`(document.getElementById("status").textContent = "...", 0)`);
      await browser.frameValue(`(${act}, 0)`);
      await page.ready();
      await page.untilInPicture(drawnAre(...drawn));
    });
  }
  await answering(page, "a step in the picture", async () => {
    const took = await browser.frameValue(`(begun => (${press("on")}, performance.now() - begun))(performance.now())`);
    assert.ok(took < 100, `the step takes ${took} ms`);
    await page.until(`spot.event === 1`);
  });
}

async function longOnes(page) {
  const { browser } = page;
  await page.open();
  await browser.value(`(window.most = 0, window.last = performance.now(), setInterval(() => { const now = performance.now(); most = Math.max(most, now - last); last = now; }, 5), 0)`);
  const texts = longTexts();
  for (const [name, content] of Object.entries(texts)) {
    await browser.value(`(window.made = [], 0)`);
    for (let at = 0; at < content.length; at += 1 << 20) await browser.value(`(window.made.push(${JSON.stringify(content.slice(at, at + (1 << 20)))}), 0)`);
    // A file's bytes are not the page's to encode.
    await browser.value(`(window.made = new Blob(window.made), 0)`);
    for (const task of name === "play" ? ["play", "explain", "check", "picture"] : ["check"]) {
      await answering(page, `a ${name} of ${content.length} bytes, ${task}`, async () => {
        await page.after(name !== page.held ? `openBlob(window.made, "a long text")` : `document.getElementById("tab-${task}").click()`);
        page.held = name;
        if (task === "picture") await page.untilInPicture(drawnAre("0", "1,999"));
      });
      if (task === "play") await page.tab("play");
    }
    if (name === "play") await throughStretches(page);
  }
  await browser.value(`(async () => { window.dropped = new DataTransfer(); window.dropped.setData("text/plain", await window.made.text()); return 0; })()`);
  // A paste would do the same, but Firefox lets no script make one that has data.
  await answering(page, "the transcript, dropped as text", () =>
    page.after(`document.getElementById("text").dispatchEvent(new DragEvent("drop", { dataTransfer: window.dropped, bubbles: true, cancelable: true }))`));
  await check(`${browser.name}: Stop`, async () => {
    await browser.value(`(document.getElementById("tab-check").click(), 0)`);
    await page.until(`!document.getElementById("busy").hidden`);
    await browser.value(`(document.getElementById("stop").click(), 0)`);
    assert.strictEqual(await browser.value(`document.getElementById("status").textContent`), "Stopped.");
    await page.sample("two-faced-sender");
  });
}

// ---- all of it

async function withBrowser(Kind, scheme, body) {
  const room = fs.mkdtempSync(`${os.tmpdir()}/dsr-browser-`), browser = await Kind.start(room, scheme);
  if (!browser) return false;
  try {
    await body(new Page(browser));
  } finally {
    await browser.end();
    await check(`${browser.name}: nothing is said on the console`, async () => assert.deepStrictEqual(browser.said, []));
    await pause(500);
    fs.rmSync(room, { recursive: true, force: true, maxRetries: 9, retryDelay: 300 });
  }
  return true;
}

async function main([folder, ...words]) {
  if (!folder) { console.error("tests/browsers.js FOLDER [chromium] [firefox] [long]"); return 2; }
  fs.mkdirSync(folder, { recursive: true });
  const asked = words.filter(word => word !== "long"), isLong = words.includes("long");
  let skipped = 0;
  for (const [name, Kind] of [["chromium", Chromium], ["firefox", Firefox]]) {
    if (asked.length && !asked.includes(name)) continue;
    const found = await withBrowser(Kind, "light", async page => {
      await page.browser.look(1280, 800, "light");
      if (isLong) return longOnes(page);
      await page.open();
      await eachPlay(page);
      await asAReader(page);
      await inStretches(page);
      await inParts(page);
      await byKeys(page);
      await shots(page, folder, "light");
    });
    if (found && !isLong) await withBrowser(Kind, "dark", page => shots(page, folder, "dark"));
    if (!found) { skipped++; console.log(`there is no ${name}: skipped`); }
  }
  console.log(`${counts.passed} passed, ${counts.failed} failed, ${skipped} skipped`);
  return counts.failed ? 1 : 0;
}

main(process.argv.slice(2)).then(status => process.exit(status));

"use strict";
// What the page of a picture draws: the data lines of a run, read, and what happened in plain words. tools/picture_run.py does the same for SVGs, as far as
// they show it; tests/page.py compares the two.
const picture = (() => {
  const TITLE = "dsr-explain 1 ";
  const REFUSALS = {
    E1: "BadShape", E4: "Busy", E5: "NotDue", E6: "BoxFull", E7: "BoxEmpty", E8: "Forged", E9: "Exhausted", E12: "NoMemory", E14: "NotARun", E15: "NoActor",
    E16: "WrongRole",
  };
  const KEPT = ["first", "second"], UNKEPT = ["not-new", "one-too-many"];
  // What is said of a chain that is not kept for a fault, after `is dropped: `.
  const FAULTS = new Map([
    ["wrong-count", (run, c) => `${counted(c.signers.length, "signature")}, and round ${c.round} of a slot needs ${c.round}`],
    ["wrong-sender", (run, c) => `the first signer is not ${run.sender(c.slot)}, whose slot it is`],
    ["no-replica", () => "a signer is no replica of the shape"],
    ["signed-twice", () => "a signer signed twice"],
    ["misfit", (run, c) => `${c.misfit ? `the signature of ${c.misfit}` : "a signature"} is on something else than what stands before it`],
    ["bad-request", () => "a request is not signed by its client, or that client is not of the shape"],
    ["other-slot", () => "it is of another slot"],
    ["not-in-flight", (run, c) => `slot ${c.slot} is not in flight`],
  ]);
  // Why an event is refused, and why an envelope is no vote, in words, by the word of its line; what belongs to it follows the word.
  const REASONS = new Map(Object.entries({
    "no-actor": actor => `${actor} is no actor of this shape`,
    traitor: actor => `${actor} is a traitor: what it posts is planted`,
    loyal: actor => `${actor} is loyal: only traitors plant`,
    "both-clients": () => "clients post nothing to each other: they tell",
    "from-itself": () => "a client takes nothing from itself",
    "not-two-clients": () => "only a client tells, and only another client",
    "due-post": replica => `it must first post to ${replica}`,
    "due-take": replica => `it must first take from ${replica}`,
    "chosen-before": () => "what it proposes is chosen at its post to r0",
    "other-sender": (slot, sender) => `the slot that begins with this round, ${slot}, has the sender ${sender}`,
    "nothing-held": client => `it holds no ask of ${client}`,
    "begins-nothing": () => "a replica begins no request",
    "nothing-acted": client => `no request of ${client} has acted there yet`,
    "no-choice": () => "a replica has no choice at a post to a client",
    "proposes-nothing": () => "a client proposes nothing",
    outstanding: number => `its request ${number} is outstanding`,
    "nothing-outstanding": () => "no request of it is outstanding",
    "exhausted-rounds": () => "it has closed 2^36 rounds, and closes no more",
    "exhausted-numbers": () => "its last request had the number 2^40-1, and there is no greater one",
    "exhausted-posts": () => "2^40-1 envelopes were posted there, and no more may be",
    "box-full": () => "what was posted there before has not been taken",
    "box-empty": () => "no envelope is waiting there",
    forged: (signer, statement) => `the signature of ${signer} on ${statement} is forged: ${signer} is no traitor of this shape, and has not posted it`,
    // Those that only a recorded step has.
    "other-held": () => "the box holds another envelope",
    "other-kind": () => "it posts an envelope of another kind there",
    "other-round": (ours, theirs) => `it is in round ${ours}, and the envelope is of round ${theirs}`,
    "chain-too-many": (...chain) => `${chainOfReason(chain)}, is one too many`,
    "chain-missing": (...chain) => `${chainOfReason(chain)}, is missing`,
    "chain-misplaced": (...chain) => `${chainOfReason(chain)}, is in the wrong place`,
    "chain-other-content": (...chain) => `${chainOfReason(chain)}, has another content or signature there`,
    "number-used": (number, next) => `its request ${number} is answered, and its next one is ${next}`,
    "number-too-high": (number, next) => `the number ${number} is too high: its next request is ${next}`,
    "other-outstanding": (number, next) => `its ask ${number} is not for its outstanding request ${next}`,
    "not-own": () => "the request or its signature is not its own",
    "other-reply": () => "it gives another reply there",
    "other-front": () => "its seen front is another",
    "signed-outside": (signer, statement) => `it carries a signature of ${signer}, who is no actor of this shape, on ${statement}`,
    "client-twice": client => `it begins its slot with more than one request of ${client}`,
  }));
  const NO_VOTES = new Map(Object.entries({
    "no-reply": () => "it is no reply",
    "nothing-outstanding": () => "no request is outstanding",
    "other-number": number => `request ${number} is outstanding`,
    "has-voted": () => "it has voted, and only its first reply counts",
  }));
  // Notes that are not drawn, and how many parts each has; and how many those have that are.
  const UNDRAWN = new Map(Object.entries({ silence: 2, kept: 5, hold: 2, drop: 2, unproposed: 3 }));
  const FIELDS = new Map(Object.entries({ close: 2, decide: 4, act: 3, stale: 2, vote: 4, "no-vote": 3, accept: 4 }));
  const KINDS = ["post", "plant", "take", "tell"];
  const MARKED = new Set(["refused", "second", "dropped", "decided", "idle", "stale", "no-vote", "accepted"]);
  const ORDER = ["kept", "second", "dropped", "decided", "idle", "acts", "stale", "vote", "no-vote", "accepted"];
  const MOST_LETTERS = 26, MOST_SHOWN = 3, MOST_LINES = 40;
  // Of so many slots before a stretch it is known what was kept: more than a wide window shows.
  const MOST_SLOTS = 100;

  class BadData extends Error {}

  const counted = (number, word) => `${number} ${word}${number === 1 ? "" : "s"}`;
  const listed = items => items.length === 1 ? items[0] : `${items.slice(0, -1).join(", ")} and ${items[items.length - 1]}`;
  const isLower = text => text === text.toLowerCase() && text !== text.toUpperCase();
  // The value of this key, which is made where there is none.
  const at = (map, key, make) => { if (!map.has(key)) map.set(key, make()); return map.get(key); };

  const chainOfReason = ([place, slot, signers]) => `its chain ${place}, of slot ${slot} and signed by ${signers}`;

  // The sentence of a reason, by its word and what follows it.
  function sentenceOf(reasons, text) {
    const [word, ...more] = text.split(" ");
    if (!reasons.has(word)) throw new BadData(text);
    return reasons.get(word)(...more);
  }

  const reasonOf = text => sentenceOf(REASONS, text);

  // At most so many parts, of which the last has the rest.
  function parts(text, most) {
    const found = text.split(" ");
    return found.length <= most ? found : [...found.slice(0, most - 1), found.slice(most - 1).join(" ")];
  }

  function number(text) {
    if (!/^\d+$/.test(text)) throw new BadData(text);
    return Number(text);
  }

  // Actors in short, replicas before clients: three or more in a row as `r2 to r5`.
  function span(actors) {
    const ranked = [...actors].map(actor => [actor[0], Number(actor.slice(1))]).sort((a, b) => (a[0] === "c") - (b[0] === "c") || a[1] - b[1]);
    const runs = [];
    for (const [kind, at] of ranked) {
      const last = runs[runs.length - 1];
      if (last && last[0] === kind && last[2] === at - 1) last[2] = at; else runs.push([kind, at, at]);
    }
    return runs.flatMap(([kind, low, high]) => high - low > 1 ? [`${kind}${low} to ${kind}${high}`]
      : Array.from({ length: high - low + 1 }, (_, more) => `${kind}${low + more}`)).join(", ");
  }

  // The items of a text that this mark joins, where it stands outside of parentheses.
  function split(text, mark) {
    if (!text.includes("(")) return text.split(mark);
    const items = [];
    let depth = 0, begun = 0;
    for (let at = 0; at < text.length; at++) {
      depth += (text[at] === "(") - (text[at] === ")");
      if (text[at] === mark && depth === 0) { items.push(text.slice(begun, at)); begun = at + 1; }
    }
    return [...items, text.slice(begun)];
  }

  // What a replica made of a chain that it took.
  function chainOf(words) {
    if (words.length !== 6) throw new BadData();
    const [replica, slot, round, signers, content, fate] = words;
    if (!KEPT.includes(fate) && !UNKEPT.includes(fate) && !FAULTS.has(fate)) throw new BadData();
    return { replica, slot: number(slot), round: number(round), signers: signers === "-" ? [] : signers.split("+"), content, fate, misfit: null };
  }

  // Whose signature does not fit in this chain of the envelope: the first that has beside it what it is on. Null if no such chain is there, or if there
  // are some of which this differs.
  function misfitIn(envelope, chain) {
    const found = new Set();
    for (const told of envelope.split(" ").slice(2)) {
      const [slot, value, signatures] = split(told, "/"), links = split(signatures, "+"), signer = link => link.split("(")[0];
      const content = split(value, ",").map(signed => signed.split("~")[0]).join(",");
      if (slot === String(chain.slot) && content === chain.content && links.map(signer).join("+") === chain.signers.join("+"))
        links.filter(link => link.includes("(")).slice(0, 1).forEach(link => found.add(signer(link)));
    }
    return found.size === 1 ? [...found][0] : null;
  }

  class Event {
    constructor(index, line, kind, a, b, outcome, envelope) {
      Object.assign(this, { index, line, kind, a, b, outcome, envelope });
      // the other half: the take of a post, the post of a take; and the round in which a loyal replica takes it
      this.notes = []; this.band = null; this.mate = null; this.takenIn = null;
    }
    get isDone() { return this.outcome === "done"; }
    get isTake() { return this.kind === "take"; }
    get chains() { return this.of("chain"); }
    of(word) { return this.notes.filter(note => note[0] === word).map(note => note[1]); }
  }

  // Notes in a table of slots what this note of an event says was kept or decided.
  function noteSlot(table, index, word, note) {
    const row = slot => at(table, slot, () => ({ kept: new Map(), decided: new Map() }));
    if (word === "chain" && KEPT.includes(note.fate)) {
      const round = note.slot + note.round - 1;
      at(row(note.slot).kept, `${note.replica} ${round}`, () => [note.replica, round, []])[2].push([index, note.content, note.fate === "second"]);
    } else if (word === "decide") {
      row(Number(note[1])).decided.set(note[0], [index, Number(note[2]), note[3]]);
    }
  }

  // What the events before a stretch of a run leave behind: how many they are, the lines of posts that are in their boxes, how many rounds each replica closed,
  // and what was kept and decided of the last slots. Besides, requests of the whole run, in the order in which they are met, so that each stretch names them alike.
  class Before {
    constructor(requests = []) { this.first = 0; this.boxes = new Map(); this.rounds = new Map(); this.slots = new Map(); this.requests = requests; }

    copy() {
      const rows = ({ kept, decided }) => ({ kept: new Map([...kept].map(([key, [replica, round, told]]) => [key, [replica, round, [...told]]])), decided: new Map(decided) });
      const slots = new Map([...this.slots].map(([slot, row]) => [slot, rows(row)]));
      return Object.assign(new Before(this.requests), { first: this.first, boxes: new Map(this.boxes), rounds: new Map(this.rounds), slots });
    }

    // Reads lines of events and notes, each ended, which follow those that were read.
    read(text) {
      for (const line of text.split("\n")) {
        if (line.startsWith("event ")) this.readEvent(line);
        else if (line.startsWith("chain ") && KEPT.some(fate => line.endsWith(` ${fate}`))) noteSlot(this.slots, this.first - 1, "chain", chainOf(line.slice(6).split(" ")));
        else if (line.startsWith("decide ")) noteSlot(this.slots, this.first - 1, "decide", parts(line.slice(7), 4));
        else if (line.startsWith("close ")) this.readClose(line.slice(6).split(" "));
      }
      for (const slot of this.slots.keys()) if (this.slots.size > MOST_SLOTS) this.slots.delete(slot); else break;
    }

    readEvent(line) {
      const [, index, , kind, a, b, outcome] = line.split(" ", 7);
      this.first = number(index) + 1;
      if (outcome !== "done") return;
      if (kind === "take") this.boxes.delete(`${b} ${a}`); else this.boxes.set(`${a} ${b}`, line);
    }

    readClose([replica, round]) { this.rounds.set(replica, number(round) + 1); }
  }

  // The requests in an envelope, or in the line of an event.
  function requestsIn(text) { return text.match(/c\d+#\d+:[a-z0-9:._-]+/g) || []; }

  // Of many lines of events and notes, the first requests in envelopes, until there are too many for letters.
  function addRequests(found, text) {
    for (const line of text.split("\n")) {
      if (found.size > MOST_LETTERS) return;
      if (line.startsWith("event ")) for (const request of requestsIn(line)) found.add(request);
    }
  }

  // The event of these words.
  function eventOf(rest) {
    const [index, line, kind, a, b, outcome, envelope] = parts(rest, 7);
    if (envelope === undefined) throw new BadData();
    return new Event(number(index), number(line), kind, a, b, outcome, envelope === "-" ? "" : envelope);
  }

  // A run, or a stretch of it: then `before` is what the events before it leave behind. Events keep their numbers.
  class Run {
    constructor(text, before = new Before()) {
      const lines = text.split("\n");
      this.before = before;
      if (!lines[0].startsWith(TITLE) || lines[lines.length - 1]) throw new BadData("the first line is no header, or the last one is not ended");
      const shape = lines[0].slice(TITLE.length).split(" ");
      if (shape.length !== 4 || !shape.slice(0, 3).every(word => /^\d+$/.test(word))) throw new BadData("the first line has no shape");
      [this.n, this.f, this.m] = shape.slice(0, 3).map(Number);
      this.traitors = new Set(shape[3] === "-" ? [] : shape[3].split("+"));
      this.replicas = Array.from({ length: this.n }, (_, at) => `r${at}`);
      this.clients = Array.from({ length: this.m }, (_, at) => `c${at}`);
      this.actors = [...this.replicas, ...this.clients];
      this.loyal = this.replicas.filter(replica => !this.traitors.has(replica));
      this.events = []; this.waits = [];
      for (let at = 1; at < lines.length - 1; at++) {
        try {
          this.read(lines[at]);
        } catch (fault) {
          throw new BadData(`line ${at + 1} is none that is known: ${lines[at].slice(0, 80)}`);
        }
      }
      this.pair();
      this.findBands();
      this.findNames();
    }

    sender(slot) { return `r${slot % this.n}`; }

    // ---- reading

    read(line) {
      const cut = line.indexOf(" "), word = cut < 0 ? line : line.slice(0, cut), rest = cut < 0 ? "" : line.slice(cut + 1);
      if (word === "event") {
        const event = eventOf(rest);
        if (event.index !== this.before.first + this.events.length) throw new BadData();
        this.events.push(event);
      } else if (word === "waits") {
        const words = rest.split(" ");
        if (words.length !== 4) throw new BadData();
        this.waits.push(words);
      } else if (UNDRAWN.has(word)) {
        // what the event and other notes show already
        if (rest.split(" ").length !== UNDRAWN.get(word) || !this.events.length) throw new BadData();
      } else {
        const event = this.events[this.events.length - 1], note = this.note(word, rest);
        event.notes.push([word, note]);
        if (word === "chain" && note.fate === "misfit") note.misfit = misfitIn(event.envelope, note);
      }
    }

    note(word, rest) {
      if (word === "why") return reasonOf(rest);
      if (word === "chain") return chainOf(rest.split(" "));
      if (!FIELDS.has(word)) throw new BadData();
      const found = parts(rest, FIELDS.get(word));
      if (found.length !== FIELDS.get(word)) throw new BadData();
      if (word === "no-vote") found[2] = sentenceOf(NO_VOTES, found[2]);
      return found;
    }

    // Finds to each take its post, and in which round a loyal replica took it.
    pair() {
      const boxes = new Map([...this.before.boxes].map(([key, line]) => [key, eventOf(line.slice(6))])), rounds = new Map(this.loyal.map(replica => [replica, this.before.rounds.get(replica) || 0]));
      for (const event of this.events) {
        if (!event.isDone) continue;
        if (!event.isTake) { boxes.set(`${event.a} ${event.b}`, event); continue; }
        const key = `${event.b} ${event.a}`;
        event.mate = boxes.get(key) || null;
        boxes.delete(key);
        if (event.mate) event.mate.mate = event;
        if (rounds.has(event.a) && event.b[0] === "r") {
          event.takenIn = rounds.get(event.a);
          if (event.mate) event.mate.takenIn = event.takenIn;
        }
        for (const [replica, round] of event.of("close")) rounds.set(replica, Number(round) + 1);
      }
    }

    // An event that was refused stands in the band of its own kind that goes on or begins there, if there is one.
    findBands() {
      const following = [];
      let next = null;
      for (let at = this.events.length - 1; at >= 0; at--) {
        if (this.events[at].isDone) next = !this.events[at].isTake;
        following[at] = next;
      }
      this.bands = [];
      this.events.forEach((event, at) => {
        const isPosts = !event.isTake, last = this.bands[this.bands.length - 1];
        if (!last || last.isPosts !== isPosts && following[at] === isPosts) this.bands.push({ isPosts, events: [], label: "" });
        event.band = this.bands.length - 1;
        this.bands[event.band].events.push(event);
      });
      for (const band of this.bands) {
        const taken = new Map();
        for (const event of band.events) if (!event.isTake && event.takenIn !== null) taken.set(`${event.a} ${event.envelope}`, event.takenIn);
        for (const event of band.events) {
          if (event.isTake || !this.traitors.has(event.b)) continue;
          const round = taken.get(`${event.a} ${event.envelope}`);
          event.takenIn = round === undefined ? null : round;
        }
        const closed = [...new Set(band.events.flatMap(event => event.of("close").map(note => Number(note[1]))))].sort((a, b) => a - b);
        if (closed.length) band.label = `round ${closed[0]}` + (closed.length > 1 ? `–${closed[closed.length - 1]}` : "");
      }
    }

    // ---- names of requests

    // A letter for each request that stands in an envelope; where they are too many, its client and number.
    findNames() {
      const found = new Set(this.before.requests);
      for (const event of this.events) for (const request of requestsIn(event.envelope)) found.add(request);
      this.requests = [...found];
      this.hasLetters = this.requests.length <= MOST_LETTERS;
      const told = new Map();
      this.names = new Map(this.requests.map((request, at) => {
        if (this.hasLetters) return [request, String.fromCharCode(65 + at)];
        const short = request.split(":")[0], before = told.get(short) || 0;
        told.set(short, before + 1);
        return [request, short + "'".repeat(before)];
      }));
    }

    nameOf(request) { return this.names.has(request) ? this.names.get(request) : request; }

    // The names of the requests of a content. In short of a long list only the first is told, where there are no letters.
    joined(names, isShort) {
      if (this.hasLetters) return names.join("");
      return isShort && names.length > 2 ? `${names[0]} and ${names.length - 1} more` : names.join(",");
    }

    contentName(content, isShort = false) {
      return content === "idle" ? content : this.joined(content.split(",").map(request => this.nameOf(request)), isShort);
    }

    // The name of a signed request, with a star where the signature beside it is not its client's on it.
    requestName(signed) {
      const cut = signed.indexOf("~"), request = cut < 0 ? signed : signed.slice(0, cut), beside = cut < 0 ? "" : signed.slice(cut + 1);
      return this.nameOf(request) + (beside === request.split("#")[0] ? "" : "*");
    }

    // A chain in short, as A/r0+r1. A star stands at a signature on something else than what fits there.
    chainName(chain, isShort) {
      const [, value, signatures] = split(chain, "/");
      const content = value === "idle" ? value : this.joined(split(value, ",").map(signed => this.requestName(signed)), isShort);
      const signers = split(signatures, "+").map(signature => signature.split("(")[0] + (signature.includes("(") ? "*" : ""));
      return `${content}/${signers.join("+")}`;
    }

    // ---- words

    // Whether a loyal replica took this envelope in another round than it says.
    saysOtherRound(event) {
      const words = event.envelope.split(" ");
      return words[0] === "round" && event.takenIn !== null && words[1] !== String(event.takenIn);
    }

    // What an envelope says, in short.
    envelopeWords(event, most = MOST_SHOWN) {
      const [word, ...rest] = event.envelope.split(" ");
      if (word === "round") return this.chainsWords(rest, most, this.saysOtherRound(event));
      if (word === "ask") return `${event.a[0] === "c" ? "asks for" : "the ask for"} ${this.requestName(rest[0])}`;
      if (word === "reply") return `replies to number ${rest[0]}: place ${rest[1]}, ${rest.slice(2).join(" ")}`;
      if (word === "seen") return `has seen ${rest[0]}`;
      return "nothing";
    }

    chainsWords([round, ...chains], most, isOff) {
      const bySlot = new Map();
      for (const chain of chains.slice(0, most)) at(bySlot, chain.split("/")[0], () => []).push(this.chainName(chain, most === MOST_SHOWN));
      const told = [...bySlot].map(([slot, names]) => `slot ${slot} ${names.join(", ")}`);
      if (chains.length > most) told.push(`${chains.length - most} more chains`);
      return (isOff ? `as of round ${round}: ` : "") + (told.join("; ") || "no chain");
    }

    // Whether the envelope says anything.
    isLoud(event) { return event.envelope !== "" && event.envelope !== "empty"; }

    // Why a loyal actor makes nothing of what it takes, which is no chain that it drops; null where that is not so.
    reasonToIgnore(event) {
      const words = event.envelope.split(" "), word = words[0];
      if (!event.isTake || !event.isDone || this.traitors.has(event.a) || event.b[0] === "c" || word === "" || word === "empty") return null;
      if (event.a[0] === "c") return word === "reply" ? null : word === "seen" ? "what a replica says it has seen counts for nothing" : "it is no reply";
      if (word !== "round") return "it has no chains, as it is of no round";
      return this.saysOtherRound(event) ? `it says round ${words[1]} in round ${event.takenIn}, so it counts as no chains` : null;
    }

    // Whether this is a loyal actor's take of which it makes nothing, or not all.
    isDropped(event) {
      return this.reasonToIgnore(event) !== null || event.isTake && event.chains.some(chain => FAULTS.has(chain.fate));
    }

    // ---- the lines beside a band: pairs of a kind and a text

    linesOf(band, mostLines) {
      const lines = [...(band.isPosts ? this.linesOfPosts(band) : this.linesOfTakes(band)), ...this.linesOfRefused(band)];
      return lines.length > mostLines ? [...lines.slice(0, mostLines - 1), ["plain", `and ${lines.length - mostLines + 1} lines more`]] : lines;
    }

    linesOfPosts(band) {
      const said = new Map();
      for (const event of band.events)
        if (event.isDone && !event.isTake) at(at(said, event.a, () => new Map()), this.envelopeWords(event), () => []).push(event.b);
      const lines = new Map(), silent = [];
      for (const actor of this.actors) {
        const texts = [...(said.get(actor) || [])];
        if (texts.length === 1 && texts[0][0] === "nothing") { silent.push(actor); continue; }
        const kind = this.traitors.has(actor) ? "traitor" : actor[0] === "c" ? "client" : "plain";
        texts.sort((a, b) => (a[0] === "nothing") - (b[0] === "nothing"));
        for (const [text, to] of texts) {
          const told = this.allOr(to);
          at(lines, JSON.stringify([kind, told, text]), () => [kind, told, text, []])[3].push(actor);
        }
      }
      const shown = [...lines.values()].map(([kind, to, text, actors]) => [kind, `${span(actors)} → ${to}: ${text}`]);
      return silent.length ? [...shown, ["quiet", `${span(silent)}: nothing`]] : shown;
    }

    allOr(actors) { return actors.join() === this.replicas.join() && this.n > 1 ? "all" : span(actors); }

    linesOfTakes(band) {
      const groups = new Map();
      const group = (kind, text, actor) => {
        const actors = at(groups, JSON.stringify([kind, text]), () => [kind, text, []])[2];
        if (!actors.includes(actor)) actors.push(actor);
      };
      for (const event of band.events) {
        const reason = this.reasonToIgnore(event);
        if (reason) group("dropped", `{} ignored what ${event.b} posted: ${reason}`, event.a);
        for (const [word, note] of event.notes) this.groupNote(word, note, group);
      }
      for (const [text, replica] of this.droppedIn(band)) group("dropped", text, replica);
      for (const [client, votes] of this.votesIn(band)) {
        for (const [envelope, [count, needed, replicas]] of votes) {
          const [, , place, answer] = parts(envelope, 4);
          group("vote", `${client} has ${count} of ${needed} votes for place ${place}, ${answer}: ${span(replicas)}`, client);
        }
      }
      return [...groups.values()].sort((a, b) => ORDER.indexOf(a[0]) - ORDER.indexOf(b[0])).map(([kind, text, actors]) => [kind, text.replace("{}", () => span(actors))]);
    }

    // Pairs of a text and a replica for the chains that are dropped for a fault; many with one fault are only counted.
    droppedIn(band) {
      const byFate = new Map(), found = [];
      for (const event of band.events)
        for (const chain of event.chains)
          if (FAULTS.has(chain.fate)) at(at(byFate, chain.fate, () => new Map()), chain.replica, () => []).push(chain);
      for (const [fate, byReplica] of byFate) {
        const isMany = [...byReplica.values()].some(chains => chains.length > MOST_SHOWN);
        for (const [replica, chains] of byReplica) {
          const names = isMany ? [counted(chains.length, "chain")]
            : chains.map(c => `slot ${c.slot} ${this.contentName(c.content, true)}/${c.signers.join("+") || "-"}`);
          for (const name of names) found.push([`{} dropped ${name}: ${fate.replaceAll("-", " ")}`, replica]);
        }
      }
      return found;
    }

    // By clients and replies: how many votes there are after the band, how many are needed, and whose came in it.
    votesIn(band) {
      const found = new Map();
      for (const event of band.events) {
        for (const [client, replica, count, needed] of event.of("vote")) {
          const votes = at(found, client, () => new Map()), before = votes.get(event.envelope);
          votes.set(event.envelope, [count, needed, [...(before ? before[2] : []), replica]]);
        }
      }
      return found;
    }

    groupNote(word, note, group) {
      if (word === "chain") {
        const content = this.contentName(note.content, true);
        if (note.fate === "first") group("kept", `{} kept ${content} of slot ${note.slot}`, note.replica);
        else if (note.fate === "second") group("second", `{} kept ${content} of slot ${note.slot} too`, note.replica);
      } else if (word === "decide") {
        const [replica, slot, kept, content] = note;
        const said = content === "idle" ? `idle, ${kept === "0" ? "none" : kept} kept` : this.contentName(content, true);
        group(content === "idle" ? "idle" : "decided", `{} decided slot ${slot}: ${said}`, replica);
      } else if (word === "act") {
        group("acts", `{}: ${this.contentName(note[2])} acts at place ${note[1]}`, note[0]);
      } else if (word === "stale") {
        group("stale", `{}: ${this.contentName(note[1])} does not act`, note[0]);
      } else if (word === "no-vote") {
        group("no-vote", `${note[0]} counts no vote of {}: ${note[2]}`, note[1]);
      } else if (word === "accept") {
        group("accepted", `${note[0]} accepted number ${note[1]}: place ${note[2]}, ${note[3]}`, note[0]);
      }
    }

    linesOfRefused(band) {
      const groups = new Map();
      for (const event of band.events) {
        if (event.isDone) continue;
        const tried = event.envelope ? `: ${this.envelopeWords(event)}` : "", arrow = event.isTake ? "←" : "→";
        const words = `${tried} refused, ${this.refusal(event)}`;
        at(groups, JSON.stringify([event.a, arrow, words]), () => [event.a, arrow, words, new Set()])[3].add(event.b);
      }
      return [...groups.values()].map(([actor, arrow, words, others]) => ["refused", `${actor} ${arrow} ${span(others)}${words}`]);
    }

    refusal(event) { return REFUSALS[event.outcome] ? `${event.outcome} ${REFUSALS[event.outcome]}` : event.outcome; }

    // ---- the sentences of one event

    // What the event is.
    sentence(event) {
      const words = this.envelopeWords(event, 8);
      if (event.isTake) return `${event.a} takes from ${event.b}` + (event.isDone ? `: ${words}` : "");
      const verb = { post: "posts to", plant: "plants for", tell: "tells" }[event.kind] || event.kind;
      return `${event.a} ${verb} ${event.b}` + (event.envelope ? `: ${words}` : "");
    }

    // What came of it: pairs of a kind and a text.
    sentences(event) {
      const found = [];
      if (!event.isDone) found.push(["refused", `Refused, ${this.refusal(event)}: ${event.of("why").join("; ") || "nothing is changed"}.`]);
      const reason = this.reasonToIgnore(event);
      if (reason) found.push(["dropped", `${event.a} ignores it: ${reason}.`]);
      return [...found, ...event.notes.filter(([word]) => word !== "why").map(([word, note]) => this.noteSentence(word, note))];
    }

    noteSentence(word, note) {
      if (word === "chain") return this.chainSentence(note);
      if (word === "close") return ["plain", `${note[0]} closes round ${note[1]}.`];
      if (word === "decide") {
        const [replica, slot, kept, content] = note, told = kept === "0" ? "nothing" : counted(Number(kept), "content");
        return [content === "idle" ? "idle" : "decided", `${replica} decides slot ${slot}: ${this.contentName(content)}. It kept ${told}.`];
      }
      if (word === "act") return ["acts", `${this.contentName(note[2])} acts at ${note[0]}, at place ${note[1]} of its history.`];
      if (word === "stale") return ["stale", `${this.contentName(note[1])} does not act at ${note[0]}: a request of its client with this number or a greater one has acted already.`];
      if (word === "vote") return ["vote", `The reply of ${note[1]} is a vote at ${note[0]}: ${note[2]} of the ${note[3]} that are needed.`];
      if (word === "no-vote") return ["no-vote", `The reply of ${note[1]} is no vote at ${note[0]}: ${note[2]}.`];
      return ["accepted", `${note[0]} accepts: number ${note[1]} stands at place ${note[2]}, and the answer is ${note[3]}.`];
    }

    chainSentence(chain) {
      const name = `${this.contentName(chain.content)}/${chain.signers.join("+") || "-"} of slot ${chain.slot}`;
      if (chain.fate === "first") return ["kept", `${chain.replica} keeps ${name}, in round ${chain.round} of the slot: the first content.`];
      if (chain.fate === "second")
        return ["second", `${chain.replica} keeps ${name}, in round ${chain.round} of the slot: a second content, so it will decide idle.`];
      if (chain.fate === "not-new") return ["plain", `${name}: this content is kept already.`];
      if (chain.fate === "one-too-many") return ["plain", `${name}: two other contents are kept already.`];
      return ["dropped", `${name} is dropped: ${FAULTS.get(chain.fate)(this, chain)}.`];
    }

    // What replicas wait for at the end, and what they have still to do.
    waitsSentences() {
      const groups = new Map();
      for (const [replica, word, other, round] of this.waits) at(groups, `${word} ${other} ${round}`, () => [word, other, round, []])[3].push(replica);
      return [...groups.values()].map(([word, other, round, replicas]) => {
        const one = replicas.length === 1;
        return word === "take" ? `${span(replicas)} ${one ? "waits" : "wait"} for ${other}'s envelope of round ${round}.`
          : `${span(replicas)} ${one ? "has" : "have"} still to post to ${other} in round ${round}.`;
      });
    }

    shapeWords() {
      const traitors = this.replicas.filter(replica => this.traitors.has(replica));
      const told = traitors.length ? `${listed(traitors)} ${traitors.length === 1 ? "is a traitor" : "are traitors"}` : "no traitor";
      return `${counted(this.n, "replica")}, f = ${this.f}, ${counted(this.m, "client")}; ${told}`;
    }

    // ---- slots

    // A short mark for each of the contents of a slot: its name if there is room for it, else a small letter.
    marks(contents) {
      const marks = new Map(), most = this.n <= 8 ? 2 : 1;
      for (const content of contents) {
        if (marks.has(content)) continue;
        const name = content === "idle" ? "∅" : this.contentName(content);
        marks.set(content, name.length <= most ? name : String.fromCharCode(97 + [...marks.values()].filter(isLower).length % 26));
      }
      return marks;
    }

    // What the marks stand for that are no names.
    keyOf(marks) {
      return [...marks].filter(([, mark]) => isLower(mark)).map(([content, mark]) => `${mark} = ${this.contentName(content)}`).join(", ");
    }

    // What was kept and decided of each slot; of a stretch, also before it.
    slots() {
      const table = this.before.copy().slots;
      for (const event of this.events) for (const [word, note] of event.notes) noteSlot(table, event.index, word, note);
      return table;
    }

    // How many rounds some loyal replica closed, and the one after them if anything was posted in it.
    rounds() {
      let most = Math.max(1, ...this.before.rounds.values());
      for (const event of this.events) {
        for (const [, round] of event.of("close")) most = Math.max(most, Number(round) + 1);
        for (const chain of event.chains) if (KEPT.includes(chain.fate)) most = Math.max(most, chain.slot + chain.round);
      }
      return most;
    }
  }

  // ---- what tools/picture_page.html draws

  // Texts that stand once each.
  class Texts {
    constructor() { this.places = new Map(); this.all = []; }
    place(text) { return at(this.places, text, () => this.all.push(text) - 1); }
  }

  // What is written below the actor's mark: pairs of a kind and texts, of which the first is taken for which there is room.
  function badges(run, event) {
    return [
      ...event.of("decide").map(([, slot, , content]) => {
        const name = run.contentName(content);
        return [content === "idle" ? "idle" : "decided", [`${slot}: ${name}`, name, slot]];
      }),
      ...event.of("accept").map(([, at]) => ["decided", [`✓ ${at}`, "✓"]]),
    ];
  }

  // Of an event: kind, the two ends, whether it is done, band, where the other half is in the stretch (less than 0 for none), whether it says anything, whether
  // something of it is dropped, line, sentence, envelope, what came of it, badges, and whether the keys n and p go to it.
  function eventRow(run, event, texts, places) {
    const notes = run.sentences(event).map(([kind, text]) => [kind, texts.place(text)]), place = actor => places.has(actor) ? places.get(actor) : -1;
    const mate = event.mate ? event.mate.index - run.before.first : -1;
    if (event.mate && mate < 0) notes.push(["plain", texts.place(`It was posted at event ${event.mate.index}, before the events that are shown.`)]);
    return [
      Math.max(0, KINDS.indexOf(event.kind)), place(event.a), place(event.b), Number(event.isDone), event.band, mate,
      Number(run.isLoud(event)), Number(run.isDropped(event)), event.line, texts.place(run.sentence(event)), texts.place(event.envelope), notes,
      badges(run, event), Number(notes.some(([kind]) => MARKED.has(kind))),
    ];
  }

  // Of each slot: what was kept (replica, round, event, mark, content, whether it is the second), what was decided (replica, event, how many were
  // kept, content), and what the marks stand for.
  function slotRows(run, places) {
    const rows = {}, { first } = run.before;
    for (const [slot, { kept, decided }] of run.slots()) {
      const marks = run.marks([...kept.values()].flatMap(([, , told]) => told.map(([, content]) => content)));
      const cells = [...kept.values()].flatMap(([replica, round, told]) => told.map(([event, content, isSecond]) =>
        [places.get(replica), round, event - first, marks.get(content), run.contentName(content), Number(isSecond)]));
      const decisions = [...decided].map(([replica, [event, count, content]]) => [places.get(replica), event - first, count, run.contentName(content)]);
      rows[slot] = [cells, decisions, run.keyOf(marks)];
    }
    return rows;
  }

  // Which rounds were closed: replica, round, and where the event is in the stretch, -1 for before it.
  function closedRows(run, places) {
    const before = [...run.before.rounds].map(([replica, rounds]) => [places.get(replica), rounds - 1, -1]);
    return [...before, ...run.events.flatMap((event, at) => event.of("close").map(([replica, round]) => [places.get(replica), Number(round), at]))];
  }

  // What the page draws of these data lines: of a whole run, or of a stretch of one with `total` events, after those that `before` tells of.
  function dataOf(text, title, before = new Before(), total = null) {
    const run = new Run(text, before), texts = new Texts(), places = new Map(run.actors.map((actor, at) => [actor, at])), { first } = before;
    // The texts are numbered in the order in which they are met.
    const bands = run.bands.map(band =>
      [Number(band.isPosts), band.events[0].index - first, band.events[band.events.length - 1].index - first, band.label, run.linesOf(band, MOST_LINES)]);
    return {
      title, first, total: total === null ? run.events.length : total, shape: run.shapeWords(), n: run.n, f: run.f, actors: run.actors, rounds: run.rounds(),
      traitors: [...run.traitors].map(traitor => places.get(traitor)).sort((a, b) => a - b),
      bands, events: run.events.map(event => eventRow(run, event, texts, places)), slots: slotRows(run, places),
      closed: closedRows(run, places),
      names: run.hasLetters ? run.requests.map(request => [run.names.get(request), request]) : [],
      waits: run.waitsSentences(), texts: texts.all,
    };
  }

  // The page of a picture, of a run or a stretch: the text of tools/picture_page.html with what is drawn put into it.
  function pageOf(template, text, title, before, total) {
    const escaped = title.replace(/&/g, "&amp;").replace(/</g, "&lt;").replace(/>/g, "&gt;").replace(/"/g, "&quot;").replace(/'/g, "&#x27;");
    // A browser reads a text of JSON in much less time than it reads the same values in a script.
    const data = JSON.stringify(JSON.stringify(dataOf(text, title, before, total))).replaceAll("</", "<\\/").replaceAll("<" + "!--", "<\\!--");
    return template.replace("TITLE", () => escaped).replace('"DATA"', () => `JSON.parse(${data})`);
  }

  return { BadData, Before, MOST_LETTERS, addRequests, dataOf, pageOf, reasonOf };
})();
if (typeof module !== "undefined") module.exports = picture;

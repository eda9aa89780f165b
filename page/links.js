// Links: each place of the run and each question has one, behind the `#` of the page's address. The address bar
// follows, and the browser's back and forward lead through the jumps.

/** So many milliseconds behind the last step the address bar follows: browsers refuse one that changes all the time. */
const ADDRESS_RESTS = 250;
/** A link asks about so many octets at most. */
const MOST_ASKED = 65_536;
/** What is asked about in one word, as a link has it, and as `data-watch` does. */
const WATCH_WORDS = new Map([["line", "interrupt"], ["link", "link"], ["frames", "frames"], ["sent", "sent"],
  ["gathered", "gathered"]]);

/**
 * What a link says: where to, and what is asked there.
 * @typedef {Object} Link
 * @property {number} step
 * @property {number} line the line to light, if not the step's own; else 0
 * @property {string} watch as `data-watch` has it; empty where nothing is asked
 * @property {string} find what is sought; empty where nothing is
 * @property {string} waits what place is to be read yet, in words; empty where it was read
 */

/**
 * What is asked about, in a link's words, which are em_debug's: `RDT`, `RCTL.EN`, `001020 8`, `line`.
 * @param {Watch} watch
 */
function wordsOfWatch({ kind, index, bits, address, count }) {
  if (kind === "register") return REGISTERS[index][1] + (bits ? `.${bits}` : "");
  if (kind === "octets") return `${addressText(address)} ${count}`;
  return [...WATCH_WORDS].find(([, name]) => name === kind)[0];
}

/** The watch that words of a link name, as `data-watch` has it; null where they name none. @param {Memory} memory */
function watchOfWords(words, memory) {
  if (WATCH_WORDS.has(words)) return WATCH_WORDS.get(words);
  const [name, bits, more] = words.split(".");
  if (INDEX_OF.has(name) && more === undefined) {
    if (bits === undefined) return `register ${name}`;
    const field = (FIELDS[stemOf(name)] ?? []).find(([one]) => one === bits);
    return field ? `bits ${name} ${maskOf(field[1], field[2])}` : null;
  }
  const [, digits, count] = /^(?:0x)?([0-9a-f]{1,10}) ([1-9]\d{0,4})$/i.exec(words) ?? [];
  const is = digits && Number(count) <= MOST_ASKED && memory.has(BigInt(`0x${digits}`), Number(count));
  return is ? `octets ${parseInt(digits, 16)} ${count}` : null;
}

/** A part of a link. Blanks are `+`, as browsers write them. */
function linkPart(name, text) {
  return `${name}=${encodeURIComponent(text).replaceAll("%20", "+").replaceAll("%3A", ":")}`;
}

/**
 * What a link says, and what is wrong with it: parts that say nothing are told, and the others hold.
 * @param {string} text from the `#` on @param {Run} run
 * @returns {{link: Link, faults: string[]}}
 */
function readLink(text, run) {
  const link = { step: -1, line: 0, watch: "", find: "", waits: "" }, faults = [], seen = new Set();
  for (const part of text.replace(/^#/, "").split("&").filter(Boolean)) {
    const [name, value] = partOfLink(part), kind = PLACE_PARTS.has(name) ? "place" : name;
    const fault = seen.has(kind) ? "stands beside another one" : LINK_PARTS.get(name)?.(value, link, run)
      ?? (LINK_PARTS.has(name) ? "" : "says nothing here");
    if (fault) faults.push(`“${visible(shortened(value === null ? name : `${name}=${value}`, 80))}” ${fault}`);
    seen.add(kind);
  }
  if (link.step < 0) {
    link.step = run.steps.length - 1;
    if (!run.isRead) link.waits ||= "the end";
  }
  return { link, faults };
}

/** Name and value of a part of a link; the value is null where there is none, or can't be read. */
function partOfLink(part) {
  const [name, ...values] = part.split("=");
  try {
    return [decodeURIComponent(name), values.length ? decodeURIComponent(values.join("=").replaceAll("+", " ")) : null];
  } catch {
    return [part, null];
  }
}

const PLACE_PARTS = new Set(["event", "step", "line"]);

/** What is wrong with the number of a place that was not read; where it may come yet, the link waits for it. */
function missing(name, value, link, { isRead }) {
  if (isRead || !isWithin(value, MOST_EVENTS)) return `is no ${name} of this ${name === "line" ? "script" : "run"}`;
  link.waits = `${name} ${grouped(Number(value))}`;
  return "";
}

/** By part: puts what it says into a link, or gives what is wrong with it. */
const LINK_PARTS = new Map([
  ["event", (value, link, run) => {
    if (!isWithin(value, run.steps.performed)) return missing("event", value, link, run);
    link.step = run.places.step.at(Number(value));
    return "";
  }],
  ["step", (value, link, run) => {
    if (!isWithin(value, run.steps.length - 1)) return missing("step", value, link, run);
    link.step = Number(value);
    return "";
  }],
  ["line", (value, link, run) => {
    const { lines, steps } = run;
    if (Number(value) === 0) return "is no line of this script";
    if (!isWithin(value, lines.length)) return missing("line", value, link, run);
    link.line = Number(value);
    link.step = lines.at(link.line)?.last ?? steps.length - 1;
    return "";
  }],
  ["who", (value, link, { state }) => {
    const watch = watchOfWords(value ?? "", state.memory);
    if (watch === null) return "is nothing that can be asked about";
    link.watch = watch;
    return "";
  }],
  ["find", (value, link) => {
    const { terms, fault } = termsOf(value ?? "");
    if (fault || !terms.length) return fault ? `can’t be sought: ${fault}` : "is nothing that can be sought";
    link.find = value;
    return "";
  }],
  ["run", (value, link, run) => (run.of === 1 ? "says nothing here"
    : /^[12]$/.test(value ?? "") ? "" : "is none of the two runs")],
]);

/** Whether a text is a number from 0 to another one. */
function isWithin(text, most) {
  return text !== null && /^\d{1,10}$/.test(text) && Number(text) <= most;
}

class Address {
  constructor(app) {
    this.app = app;
    this.isJump = false;
    /** The link that the address bar has; none while a link is followed. @type {string|null} */
    this.shown = null;
    /** When the last entry was made. */
    this.pushed = -Infinity;
    /** What place the link leads to that is to be read yet, in words; empty where it leads on. */
    this.waits = "";
    window.addEventListener("hashchange", () => this.arrive(), { signal: app.ending.signal });
  }

  /** The link of the present place, and of the question that was answered here. */
  link() {
    const { step, line, asked, run: { steps, lines } } = this.app;
    const isOwn = line === steps.lines.at(step), isLast = lines.at(line)?.last === step;
    const place = isOwn && steps.performs.at(step) ? linkPart("event", this.app.number)
      : line && (!isOwn || isLast) ? linkPart("line", line) : linkPart("step", step);
    const who = asked && asked.step === step ? [linkPart("who", wordsOfWatch(asked.watch))] : [];
    const { text, fault } = this.app.search, find = text.trim() && !fault ? [linkPart("find", text.trim())] : [];
    const run = this.app.side ? [linkPart("run", this.app.side + 1)] : [];
    return `#${[place, ...who, ...find, ...run].join("&")}`;
  }

  close() {
    clearTimeout(this.timer);
  }

  /** Follows the link that waits, once its place was read. @returns {boolean} whether it does */
  follows() {
    if (!this.waits) return false;
    this.waits = readLink(window.location.hash, this.app.run).link.waits;
    if (!this.waits) this.arrive();
    return !this.waits;
  }

  /** Waits no longer, since one goes elsewhere. */
  stop() {
    if (!this.waits) return;
    this.waits = "";
    this.shown = window.location.hash;
  }

  /** Said before a jump: the place that is left stays in the browser's history, where one was there for a moment. */
  leave() {
    if (performance.now() - this.pushed < ADDRESS_RESTS) return;
    this.settle();
    this.isJump = true;
  }

  /** Lets the address bar follow: at once behind a jump, and else when one rests. */
  follow() {
    setAttribute(byId("here"), "href", this.link());
    clearTimeout(this.timer);
    if (this.isJump) this.settle();
    else this.timer = setTimeout(() => this.settle(), ADDRESS_RESTS);
  }

  /** @private */
  settle() {
    clearTimeout(this.timer);
    const link = this.link(), { isJump } = this;
    this.isJump = false;
    if (this.shown === null || this.shown === link) return;
    this.shown = link;
    if (isJump) this.pushed = performance.now();
    try {
      if (isJump) history.pushState(null, "", link);
      else history.replaceState(null, "", link);
    } catch {
      // (a page within another one may have no history of its own)
    }
  }

  /** Goes where the address says. */
  arrive() {
    const { shown, side, two } = this.app;
    const wanted = two && /[#&]run=2(&|$)/.test(window.location.hash) ? 1 : 0;
    if (wanted !== side) {
      shown.put(wanted);
      shown.app.address.arrive();
      return;
    }
    const { link, faults } = readLink(window.location.hash, this.app.run);
    this.shown = null;
    this.tell(faults);
    this.waits = link.waits;
    if (link.waits) {
      this.app.search.set(link.find);
      this.app.paint();
      return;
    }
    this.app.show(link);
    this.shown = this.link();
  }

  /** @private */
  tell(faults) {
    const element = byId("bad-link");
    element.hidden = faults.length === 0;
    element.replaceChildren(make("b", {}, "⚠\uFE0E This link does not lead on: "),
      `${faults.join("; ")}. The page is shown without that.`);
  }
}

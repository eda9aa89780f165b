// Reads a record of a run. A record is data, whoever made it: what contradicts the format or itself is named.

const FORMAT = "bunjelav recording";
const VERSION = 3;
/** Where guest memory ends at most. */
const MOST_MEMORY = 2 ** 40;
/** The bit of STATUS that says that the link is up. */
const LINK_UP = 1;
/** What an event can be. */
const EVENT_KINDS = new Set(EVENT_KIND_LIST);
const MOST_WORD = 0xFFFFFFFF;
/** What a number of events or a time is at most. */
const MOST_EVENTS = 2 ** 32;
const MOST_TIME = Number.MAX_SAFE_INTEGER;
/** Of so many texts of events it is kept that they were found right. */
const MOST_SAID = 65_536;
/** What a line can be. A plan is drawn as a look is, since it does nothing by itself. */
const LINE_KINDS = new Set([...EVENT_KINDS, "look", "plan", "back", "driver"]);

/** What is wrong with a record, in words. */
class Broken extends Error {}

/**
 * @typedef {Object} Run
 * @property {{base: number|undefined, memory: number, budget: number, mac: string, profile: string|undefined}} settings
 * @property {string[]} script
 * @property {Lines} lines
 * @property {Steps} steps
 * @property {Places} places
 * @property {Uint32Array} registers as they were at the start
 * @property {[number, number]} touched the least part of memory that has each octet which an event changed
 * @property {State} state that is shown
 * @property {boolean} ended whether the record’s end says the same
 * @property {boolean} isRead whether all of it was read that can be
 */

/**
 * Reads a record as far as it is whole.
 * @param {Uint8Array[]} parts of its octets
 * @returns {{run: Run|null, fault: string|null}} the run is null where not even its start can be read
 */
function readRecord(parts) {
  const reading = new Reading();
  for (const part of parts) reading.take(part);
  return reading.end();
}

/** A record that is read as it comes. What is wrong with it ends that. */
class Reading {
  constructor() {
    this.source = new LineSource();
    /** @type {Reader|null} */
    this.reader = null;
    /** @type {string|null} */
    this.fault = null;
    this.begin = (head) => {
      this.reader = new Reader(head, this.source);
    };
    this.next = (line, index) => this.reader.next(line, index);
  }

  /** Does a part of it, where nothing was wrong before. @private */
  try(work) {
    if (this.fault !== null) return;
    try {
      work();
    } catch (fault) {
      if (!(fault instanceof Broken)) throw fault;
      this.fault = fault.message;
    }
  }

  /** @param {Uint8Array} part of its octets */
  take(part) {
    this.try(() => this.source.take(part, this.begin, this.next));
  }

  /** @returns {{run: Run|null, fault: string|null}} */
  end() {
    this.try(() => {
      const end = this.source.end(this.begin, this.next);
      this.reader.end(end);
    });
    if (!this.reader) return { run: null, fault: this.fault };
    this.reader.tell();
    this.reader.run.isRead = true;
    return { run: this.reader.run, fault: this.fault };
  }
}

function want(holds, words) {
  if (!holds) fail(words);
}

/** Says what is wrong. Of each event much is asked, so its words are made only where one is wrong. */
function fail(words) {
  throw new Broken(words);
}

const isObject = (value) => typeof value === "object" && value !== null && !Array.isArray(value);
const isNumber = (value, most) => Number.isInteger(value) && value >= 0 && value <= most;
const isWord = (value) => isNumber(value, MOST_WORD);
const isDigits = (value) => typeof value === "string" && value.length % 2 === 0 && /^[0-9A-Fa-f]*$/.test(value);
const isTexts = (value) => Array.isArray(value) && value.every((text) => typeof text === "string");
const isPair = (value, type) => Array.isArray(value) && value.length === 2 && value.every((one) => typeof one === type);

/** Reads the parts of a record, in their order; `run` is what was read so far. */
class Reader {
  /** @param {Object} head what the first line says @param {LineSource} source */
  constructor(head, source) {
    const { settings, start } = head;
    want(isObject(settings) && isNumber(settings.memory, MOST_MEMORY) && settings.memory >= PAGE_OCTETS
      && settings.memory % PAGE_OCTETS === 0, "its size of memory is none that an adapter can have");
    const { base = 0 } = settings;
    want(isNumber(base, MOST_MEMORY - settings.memory) && base % PAGE_OCTETS === 0,
      "no adapter can have its memory where it lies");
    const { profile } = settings;
    want(profile === undefined || profile === "adapter", "its adapter is of a profile that this page does not know");
    const registers = startRegisters(start, profile);
    const steps = new Steps(), lines = new Lines(source);
    const places = new Places(source, steps, lines);
    steps.events = places;
    /** How many events the lines so far performed, those taken back since among them. */
    this.performed = 0;
    /** The line that was read last, and where its record is. */
    this.number = 0;
    this.index = 0;
    /** At the last place that was read. */
    this.state = new State(places, registers, new Memory(base, settings.memory), new Snapshots(places));
    this.state.snapshots.keep(this.state);
    /** @type {Run} */
    this.run = {
      settings, script: [], lines, steps, places, touched: [Infinity, -Infinity], ended: false, isRead: false,
      registers: registers.slice(), state: this.state,
    };
    /** By text of an event, one that was found to say the same in its fields. @type {Given[]} */
    this.said = [];
    this.add("start", "", 0, false);
  }

  /** Reads the record of the next line. */
  next(line, index) {
    if (line.line !== this.number + 1) fail(`what follows line ${this.number} is not the next line of its script`);
    const { text = "" } = line;
    if (typeof text !== "string") fail(`the text of line ${line.line} is no text`);
    this.run.script.push(text);
    this.number = line.line;
    this.index = index;
    this.line(line, `line ${this.number}`);
  }

  /** Lets the page know of what was read up to here. */
  tell() {
    const { steps, places, lines, script } = this.run;
    steps.length = steps.count;
    places.length = steps.performing + 1;
    lines.length = script.length;
    lines.count = lines.lasts.length;
  }

  end(end) {
    want(end !== undefined, "it was cut off: it has no end");
    const { state, run: { lines } } = this, count = lines.lasts.length;
    want(isObject(end) && isNumber(end.events, Infinity) && isNumber(end.lines, Infinity), "its end can’t be read");
    const stand = state.place.depth;
    want(end.events === stand, `its end says ${counted(end.events, "event")}, and ${stand} stand there`);
    want(end.lines === count, `its end says ${counted(end.lines, "line")}, and ${count} are there`);
    this.run.ended = true;
  }

  /** @private */
  line(line, name) {
    const { steps, lines } = this.run;
    checkLine(line, name);
    const first = steps.count, mark = markOf(line), { kind } = line;
    lines.begin(this.index);
    if (line.back !== undefined) this.back(line, name);
    for (let index = 0; index < line.events.length; index++) {
      if (!isObject(line.events[index])) fail(`an event of ${name} is no object`);
      this.event(line.events[index], line, index + 1);
    }
    if (steps.count === first && (kind !== undefined || line.bad)) {
      this.add(kind === undefined || kind === "plan" ? "look" : kind, mark, line.line, false, isWarned(line));
    }
    const last = steps.count - 1;
    lines.add(line, mark, Math.min(first, last), last);
    lines.sourced(steps, first);
  }

  /** @private */
  back(line, name) {
    const { state, run: { steps, places } } = this;
    want(isNumber(line.back, state.place.depth), `${name} takes back more events than stand there`);
    for (let i = 0; i < line.back; i++) {
      places.takenBack.set(state.number, steps.count);
      state.backward();
    }
    if (line.back > 0) steps.backs.set(steps.count, line.back);
    this.add("back", markOf(line), line.line, false);
  }

  /** @private */
  event(event, line, access) {
    const { state, run: { places } } = this;
    this.performed += 1;
    if (event.event !== this.performed) this.fail(line, "has another number");
    const form = line.isGiven ? "" : formFault(event);
    if (form) this.fail(line, form);
    const given = line.isGiven ? event : givenOf(event);
    const text = places.texts.numberOf(given.text);
    const fault = this.wordsFault(given, text) || this.changeFault(given);
    if (fault) this.fail(line, fault);
    const number = places.add(state.number, given, text, access);
    this.widen(number);
    state.forward(number, given);
    this.agrees(line);
    if (state.snapshots.isDue(number)) state.snapshots.keep(state);
    const isLast = access === line.events.length;
    const mark = given.answer === "dropped" ? "dropped" : isLast && line.refused !== undefined ? "refused"
      : isLast && line.differs ? "differs" : isLast && isWarned(line) ? "warning" : "";
    this.add(given.kind, mark, line.line, true, isLast && isWarned(line));
    if (this.said[text] === given) given.settle();
  }

  /** Says what is wrong with the newest event. @private */
  fail(line, words) {
    fail(`event ${this.performed}, of line ${line.line}, ${words}`);
  }

  /**
   * What is wrong with what a record says that an event was: it says the same in words.
   * @private
   * @param {Given} given
   * @param {number} text of it
   */
  wordsFault(given, text) {
    if (this.said[text]?.isLike(given)) return "";
    const words = wordsOf(given), isSame = isAccess(given) ? given.text.startsWith(words) : given.text === words;
    if (isSame && text < MOST_SAID) this.said[text] = given;
    return isSame ? "" : "says in words that it was another than its fields say";
  }

  /** What is wrong with what an event says that it changed: each part must find what it says was there. @private */
  changeFault(given) {
    return this.registersFault(given) || this.memoryFault(given) || this.framesFault(given) || this.gatheredFault(given)
      || this.flagFault(given.link, "link") || this.flagFault(given.interrupt, "interrupt");
  }

  /** @private */
  widen(number) {
    const { touched, places } = this.run;
    touched[0] = Math.min(touched[0], places.from.at(number));
    touched[1] = Math.max(touched[1], places.to.at(number));
  }

  /** The link and the interrupt line stand in registers too. @private */
  agrees(line) {
    const { state, run: { places } } = this, signals = places.signals.at(state.number);
    if (((state.at("STATUS") >>> LINK_UP) & 1) !== (signals & LINK ? 1 : 0)) {
      this.fail(line, "leaves a link that STATUS contradicts");
    }
    if (((state.at("ICR") & state.at("IMS")) !== 0) !== ((signals & INTERRUPT) !== 0)) {
      this.fail(line, "leaves an interrupt line that ICR and IMS contradict");
    }
  }

  /** @private */
  add(kind, mark, line, performs, warned = false) {
    this.run.steps.add(kind, mark, line, performs, this.state, warned);
  }

  /** @private @param {Given} given */
  registersFault({ registers: changed }) {
    const { registers } = this.state;
    let last = -1;
    for (let i = 0; i < changed.length; i += 3) {
      const index = changed[i];
      if (index <= last) return "does not have its registers in their order";
      if (registers[index] !== changed[i + 1]) {
        return `says that ${REGISTERS[index][1]} was ${hex(changed[i + 1], 8)} before it, and it was `
          + hex(registers[index], 8);
      }
      last = index;
    }
    return "";
  }

  /** @private @param {Given} given */
  memoryFault({ pieces, from }) {
    const { memory } = this.state;
    let end = 0;
    for (let i = 0; i < pieces.length; i += 4) {
      const address = pieces[i];
      if (address < end) return "does not have its octets in their order";
      end = address + pieces[i + 1];
      if (address < memory.base || end > memory.end) return "has octets outside memory";
      if (!memory.holds(address, pieces[i + 1], from, pieces[i + 2])) {
        return `says what octets stood at ${addressText(address)} before it, and others did`;
      }
    }
    return "";
  }

  /** @private @param {Given} given */
  framesFault({ frames: change }) {
    if (change === null) return "";
    const { number, places } = this.state, frames = places.frames.at(number);
    if (!isNumber(change[1], frames + 1)) return "has a number of frames that can’t be";
    return change[0] === frames ? "" : `says that ${change[0]} frames waited before it, and ${frames} did`;
  }

  /** @private @param {Given} given */
  gatheredFault({ gathered: change }) {
    if (change === null) return "";
    const { gathered } = this.state.place, [kept, before] = change;
    if (kept > gathered.length / 2) return "has gathered octets that can’t be read";
    return gathered.slice(2 * kept) === before ? "" : "says what octets were gathered before it, and others were";
  }

  /** @private */
  flagFault(change, field) {
    return change === null || change[0] === this.state.place[field] ? ""
      : `says that the ${field} was another before it`;
  }
}

/** Whether a line's record has the format's parts. */
function checkLine(line, name) {
  if (line.kind !== undefined && !LINE_KINDS.has(line.kind)) fail(`${name} is of no kind that there is`);
  // (what was read without JSON has the right form)
  if (line.isGiven) return;
  for (const field of ["answer", "warnings"]) {
    if (line[field] !== undefined && !isTexts(line[field])) fail(`“${field}” of ${name} is no list of texts`);
  }
  for (const field of ["refused", "why", "expected", "differs", "source"]) {
    if (line[field] !== undefined && typeof line[field] !== "string") fail(`“${field}” of ${name} is no text`);
  }
  if (line.time !== undefined && !isNumber(line.time, MOST_TIME)) fail(`the time of ${name} is none`);
}

function startRegisters(start, profile) {
  want(isObject(start) && isObject(start.registers), "it does not say how the registers were at the start");
  const values = new Uint32Array(REGISTERS.length);
  for (const [name, value] of Object.entries(start.registers)) {
    want(INDEX_OF.has(name) && isOfProfile(name, profile), `it names a register ${shortened(JSON.stringify(name), 40)}, which there is not`);
    want(isWord(value), `its ${name} at the start is no value of a register`);
    values[INDEX_OF.get(name)] = value;
  }
  const missing = REGISTERS.find(([, name]) => isOfProfile(name, profile) && !Object.hasOwn(start.registers, name));
  want(!missing, `it does not say how ${missing?.[1]} was at the start`);
  return values;
}

/** How a line came out. */
function markOf(line) {
  if (line.bad) return "bad";
  if (line.refused !== undefined) return "refused";
  if (line.events.length === 1 && line.events[0]?.answer === "dropped") return "dropped";
  return line.differs ? "differs" : isWarned(line) ? "warning" : "";
}

/** Whether a line has a warning. */
function isWarned({ warnings }) {
  return warnings !== undefined && warnings.length > 0;
}

/** How a line is called where it has a number. */
function lineName(line) {
  return isNumber(line.line, Infinity) ? `line ${line.line}` : "a line";
}

const isAccess = (event) => event.kind === "read" || event.kind === "write";

/** What an event was, in words; of an access without its bits. @param {Given} given */
function wordsOf(given) {
  const { kind, register, value, address, length, up, answer, reason, descriptor } = given;
  if (isAccess(given)) return `${kind} ${REGISTERS[register][1]} ${hex(value, 8)}`;
  switch (kind) {
    case "poke": return `poke ${addressText(address)} length ${length}`;
    case "link": return `link ${up ? "up" : "down"}`;
    case "arrive": return `arrive length ${length}: ${[answer, reason ?? []].flat().join(" ")}`;
    default: return `${kind}: ${[answer, descriptor ?? [], length ?? []].flat().join(" ")}`;
  }
}

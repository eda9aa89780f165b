// The steps of a run and the lines of its script, in columns.

/** What an event can be. */
const EVENT_KIND_LIST = ["read", "write", "poke", "arrive", "rx", "tx", "link"];
/** What a step can be, by the number in its column. */
const STEP_KINDS = ["start", ...EVENT_KIND_LIST, "driver", "look", "back"];
const KIND_NUMBER = new Map(STEP_KINDS.map((kind, number) => [kind, number]));
/** How a step or a line can come out, by the number in its column. */
const MARK_KINDS = ["", "refused", "dropped", "bad", "differs", "warning"];
const WARNING = MARK_KINDS.indexOf("warning");

/** So many warnings of a line are counted. */
const MOST_WARNED = 255;

/**
 * A step of the run: an event, a reverse step, or a line that did nothing.
 * @typedef {Object} Step
 * @property {"start"|"read"|"write"|"poke"|"arrive"|"rx"|"tx"|"link"|"driver"|"look"|"back"} kind
 * @property {""|"refused"|"dropped"|"bad"|"differs"|"warning"} mark
 * @property {number} line its number from 1; 0 for the start
 * @property {Place} place behind it
 * @property {boolean} performs whether it performed the event of its place
 * @property {number} back how many events it took back
 */
class Steps {
  constructor() {
    this.kinds = new Numbers(Uint8Array);
    this.marks = new Numbers(Uint8Array);
    this.performs = new Numbers(Uint8Array);
    /** Whether its line has warnings, of the line's last one. A step that has a mark besides is found by both. */
    this.warned = new Numbers(Uint8Array);
    this.lines = new Numbers(Uint32Array);
    /** The numbers of their places. */
    this.places = new Numbers(Uint32Array);
    /** ICR and IMS behind each. */
    this.icr = new Numbers(Uint32Array);
    this.ims = new Numbers(Uint32Array);
    /** How many events a reverse step took back, of those that took any. @type {Map<number, number>} */
    this.backs = new Map();
    /** How many of them performed an event, and how many came out in each way, by the number of the mark. */
    this.performing = 0;
    this.outcomes = new Uint32Array(MARK_KINDS.length);
    /** The bits that ICR or IMS ever had. */
    this.seen = 0;
    /** How many of them the page knows of: of a long run more may have been read. */
    this.length = 0;
    /** Where the places of events are kept. @type {Places|null} */
    this.events = null;
  }

  /** How many were read. */
  get count() {
    return this.kinds.length;
  }

  /** How many of those that the page knows of performed an event. */
  get performed() {
    return this.events.length - 1;
  }

  /** @param {State} state behind it @param {boolean} isWarned whether its line has warnings */
  add(kind, mark, line, performs, state, isWarned) {
    const outcome = MARK_KINDS.indexOf(mark), icr = state.at("ICR"), ims = state.at("IMS");
    this.kinds.push(KIND_NUMBER.get(kind));
    this.marks.push(outcome);
    this.performs.push(performs ? 1 : 0);
    this.warned.push(isWarned ? 1 : 0);
    if (performs) this.performing += 1;
    if (outcome !== WARNING) this.outcomes[outcome] += 1;
    if (isWarned) this.outcomes[WARNING] += 1;
    this.seen |= icr | ims;
    this.lines.push(line);
    this.places.push(state.number);
    this.icr.push(icr);
    this.ims.push(ims);
  }

  /** @returns {Step} */
  at(index) {
    return {
      kind: this.kind(index), mark: this.mark(index), line: this.lines.at(index),
      place: this.events.at(this.places.at(index)), performs: this.performs.at(index) === 1,
      back: this.backs.get(index) ?? 0,
    };
  }

  kind(index) {
    return STEP_KINDS[this.kinds.at(index)];
  }

  mark(index) {
    return MARK_KINDS[this.marks.at(index)];
  }

  /** How many came out so; of warnings, how many have any. */
  marked(mark) {
    return this.outcomes[MARK_KINDS.indexOf(mark)];
  }

  /** Whether a step lies on a branch that was taken back. */
  isOnBranch(index) {
    return this.performs.at(index) ? this.events.takenBack.at(this.places.at(index)) !== NEVER
      : this.kind(index) === "back";
  }
}

/** The lines of a script, by their numbers from 1: where each one's record is, and its steps. */
class Lines {
  /** @param {LineSource} source */
  constructor(source) {
    this.source = source;
    /** By line less 1: the place of its record, and one more than its mark's number. */
    this.records = new Numbers(Uint32Array);
    this.marks = new Numbers(Uint8Array);
    /** Where it comes from, by the number of that text; of most lines it is empty. */
    this.sources = new Numbers(Uint32Array);
    this.texts = new Texts();
    /** What it answered, how that differs and its warnings, to be sought in, by the number of that text. */
    this.answers = new Numbers(Uint32Array);
    this.answerTexts = new Texts();
    /** Why its event did nothing, by the number of that text. */
    this.whys = new Numbers(Uint32Array);
    this.whyTexts = new Texts();
    for (const texts of [this.texts, this.answerTexts, this.whyTexts]) texts.numberOf("");
    /** How many warnings it has. */
    this.warned = new Numbers(Uint8Array);
    /** When it was, in microseconds; NaN where it does not say. */
    this.times = new Numbers(Float64Array);
    this.hasTimes = false;
    /** The first of its steps, or the one at which it stands; and the last. */
    this.firsts = new Numbers(Uint32Array);
    this.lasts = new Numbers(Uint32Array);
    /**
     * By the number of a source, the steps of its lines that are events, and the others.
     * @type {{events: Numbers, others: Numbers}[]}
     */
    this.ofSources = [];
    /** How many lines of the script the page knows of, and how many of them were read whole. */
    this.length = 0;
    this.count = 0;
  }

  /** Where the record of the next line is, which begins. */
  begin(record) {
    this.records.push(record);
  }

  /** The line that began, which was read whole. @param {Object} line its record */
  add({ source, answer = NO_TEXTS, differs, why, warnings = NO_TEXTS, time }, mark, first, last) {
    this.marks.push(MARK_KINDS.indexOf(mark) + 1);
    this.sources.push(this.texts.numberOf(source ?? ""));
    this.answers.push(this.answerTexts.numberOf(answerText(answer, differs, why, warnings)));
    this.whys.push(this.whyTexts.numberOf(why ?? ""));
    this.warned.push(Math.min(warnings.length, MOST_WARNED));
    this.times.push(time ?? NaN);
    if (time !== undefined) this.hasTimes = true;
    this.firsts.push(first);
    this.lasts.push(last);
  }

  /**
   * Notes which steps the newest line has, where it says where it comes from.
   * @param {Steps} steps
   * @param {number} first
   */
  sourced(steps, first) {
    const source = this.sources.at(this.sources.length - 1), last = steps.count - 1;
    if (!source) return;
    const own = this.ofSources[source] ??= { events: new Numbers(Uint32Array, 4), others: new Numbers(Uint32Array, 4) };
    for (let step = first; step <= last; step++) (steps.performs.at(step) ? own.events : own.others).push(step);
    if (first > last) own.others.push(last);
  }

  /** The place of a line's record. */
  record(number) {
    return this.records.at(number - 1);
  }

  /** @returns {PlayedLine|null} null of a line that was not read whole, or of none */
  at(number) {
    return number > 0 && number <= this.count ? new PlayedLine(this, number) : null;
  }
}

/** An answer as it is sought in, with what is told beside it. @param {string[]} answer @param {string} [differs] */
function answerText(answer, differs, why, warnings) {
  const isAlone = answer.length === 1 && !differs && !why && !warnings.length;
  if (isAlone && answer[0].length <= MOST_OF_ANSWER) return answer[0];
  return [...answer, why ?? "", ...warnings, differs ?? ""].join("\n").slice(0, MOST_OF_ANSWER);
}

/** A line that was played. What it answered is read again where it is shown. */
class PlayedLine {
  /** @param {Lines} lines */
  constructor(lines, number) {
    this.lines = lines;
    this.number = number;
    this.first = lines.firsts.at(number - 1);
    this.last = lines.lasts.at(number - 1);
  }

  /** @returns {""|"refused"|"dropped"|"bad"|"differs"|"warning"} */
  get mark() {
    return MARK_KINDS[this.lines.marks.at(this.number - 1) - 1];
  }

  /** Where it comes from; empty where it does not say. */
  get source() {
    return this.lines.texts.list[this.lines.sources.at(this.number - 1)];
  }

  /** @returns {string[]} */
  get answer() {
    return this.record.answer ?? NO_TEXTS;
  }

  /** Why its event did nothing; empty where it did something, or is none. */
  get why() {
    return this.lines.whyTexts.list[this.lines.whys.at(this.number - 1)];
  }

  /** What its driver seems to get wrong. @returns {string[]} */
  get warnings() {
    return this.lines.warned.at(this.number - 1) ? this.record.warnings : NO_TEXTS;
  }

  /** How its answer differs from the one that it expects; empty where it does not. */
  get differs() {
    return this.record.differs ?? "";
  }

  /** @private */
  get record() {
    return this.lines.source.line(this.lines.record(this.number));
  }
}

// What is sought in a run: terms that must all hold. They are asked of columns and of joined texts, a million events in
// one go; only the octets of frames are read again from the record.

/** So much of an answer is sought in, in characters. */
const MOST_OF_ANSWER = 4_096;
/** What `is:` takes, besides the marks. */
const GONE = "gone", UNLIKE = "unlike";
const IS_WORDS = [...MARK_KINDS.slice(1), GONE, UNLIKE];

/** Texts that are sought in all at once, without regard to capitals. */
class Haystack {
  /** @param {string[]} texts */
  constructor(texts) {
    /** Where each one begins in the joined text, and where the last one ends. */
    this.starts = new Uint32Array(texts.length + 1);
    const parts = texts.map((text, index) => {
      const lower = text.toLowerCase();
      this.starts[index + 1] = this.starts[index] + lower.length + 1;
      return lower;
    });
    this.text = `${parts.join("\n")}\n`;
  }

  /** By text, whether the words stand in it. @param {string} words @returns {Uint8Array} */
  holds(words) {
    const { starts, text } = this, holds = new Uint8Array(starts.length - 1), lower = words.toLowerCase();
    let index = 0;
    for (let at = text.indexOf(lower); at >= 0; at = text.indexOf(lower, starts[index])) {
      index = this.indexOf(at, index);
      // (what goes over from one text into the next stands in none)
      if (at + lower.length < starts[index + 1]) holds[index] = 1;
      index += 1;
      if (index >= holds.length) break;
    }
    return holds;
  }

  /** In which text a place lies, from one on. @private */
  indexOf(at, from) {
    let [low, high] = [from, this.starts.length - 2];
    while (low < high) {
      const middle = (low + high + 1) >> 1;
      if (this.starts[middle] <= at) low = middle;
      else high = middle - 1;
    }
    return low;
  }
}

/**
 * Where something was found: steps, and lines that are none, such as comments, in the order of the script.
 * @typedef {Object} Hits
 * @property {Uint32Array} steps
 * @property {Uint32Array} lines the line to light; 0: the step's own
 */

/** A term of what is sought, by its name: what its word must be, and what it says then. */
const TERMS = {
  register: { of: (word) => INDEX_OF.get(word.toUpperCase()), wrong: "is no register" },
  value: { of: (word) => (/^(0x)?[0-9a-f]{1,8}$/i.test(word) ? parseInt(word, 16) : undefined),
    wrong: "is no value: up to eight hexadecimal digits" },
  line: { of: lineRange, wrong: "is no line, and no range as 10-20" },
  source: { of: (word) => word || undefined, wrong: "is no source" },
  reason: { of: (word) => word || undefined, wrong: "is no reason" },
  kind: { of: (word) => KIND_NUMBER.get(word.toLowerCase()), wrong: `is none of ${STEP_KINDS.join(", ")}` },
  is: { of: (word) => IS_WORDS.find((one) => one === word.toLowerCase()), wrong: `is none of ${IS_WORDS.join(", ")}` },
  frame: { of: frameTerm, wrong: `is none of ${frameNames().join(", ")}, and no octets as 0A000202` },
  words: { of: (word) => word || undefined, wrong: "is empty" },
};

/** The lines from one to another. @returns {[number, number]|undefined} */
function lineRange(word) {
  const [, first, last] = /^(\d{1,9})(?:-(\d{1,9}))?$/.exec(word) ?? [];
  return first === undefined ? undefined : [Number(first), Number(last ?? first)];
}

/** The terms of what is sought, and what is wrong with it. @param {string} text */
function termsOf(text) {
  const terms = [];
  for (const [part] of text.matchAll(/(?:[a-z]+:)?"[^"]*"?|\S+/gi)) {
    const [, name, word] = /^([a-z]+):(.*)$/is.exec(part) ?? [];
    const is = name !== undefined && Object.hasOwn(TERMS, name.toLowerCase()) && name.toLowerCase() !== "words";
    const kind = is ? name.toLowerCase() : "words", said = (is ? word : part).replace(/^"|"$/g, "");
    const value = TERMS[kind].of(said);
    if (value === undefined) return { terms: [], fault: `“${visible(shortened(said, 40))}” ${TERMS[kind].wrong}` };
    terms.push({ kind, value });
  }
  return { terms, fault: "" };
}

class Finder {
  /** @param {Run} run */
  constructor(run) {
    this.run = run;
    /** Texts to seek in, by name, made where they are first wanted. @type {Map<string, Haystack>} */
    this.made = new Map();
  }

  /** What is found. @param {string} text @returns {{hits: Hits, fault: string}} */
  find(text) {
    const { terms, fault } = termsOf(text);
    // (what is still to be read may have it too)
    if (fault || !terms.length || !this.run.isRead) {
      return { hits: { steps: new Uint32Array(0), lines: new Uint32Array(0) }, fault };
    }
    const { steps } = this.run, found = new Uint8Array(steps.length).fill(1);
    const tests = terms.map((term) => this.test(term, terms)).filter(Boolean);
    for (const { step: holds } of tests) {
      for (let step = 0; step < found.length; step++) if (found[step] && !holds(step)) found[step] = 0;
    }
    return { hits: this.hits(found, tests.every(({ line }) => line) ? tests.map(({ line }) => line) : null), fault };
  }

  /** @private */
  haystack(name, texts) {
    if (!this.made.has(name)) this.made.set(name, new Haystack(texts));
    return this.made.get(name);
  }

  /**
   * Whether a term holds: of a step, and, where it can be asked, of a line that has no step.
   * @private @returns {{step: (step: number) => boolean, line?: (number: number) => boolean}|null}
   */
  test({ kind, value }, terms) {
    const { steps, places, lines } = this.run;
    switch (kind) {
      case "register": {
        const values = terms.filter((term) => term.kind === "value").map((term) => term.value);
        return { step: (step) => (values.length ? values.every((one) => this.accessed(step, value, one))
          : this.accessed(step, value, null)) };
      }
      // (a value beside a register is that register's)
      case "value": return terms.some((term) => term.kind === "register") ? null
        : { step: (step) => this.accessed(step, NO_REGISTER, value) };
      case "line": {
        const holds = (number) => number >= value[0] && number <= value[1];
        return { step: (step) => holds(steps.lines.at(step)), line: holds };
      }
      case "source": {
        const holds = this.haystack("sources", lines.texts.list).holds(value);
        const line = (number) => number > 0 && holds[lines.sources.at(number - 1)] === 1;
        return { step: (step) => line(steps.lines.at(step)), line };
      }
      case "reason": {
        const holds = this.haystack("reasons", lines.whyTexts.list).holds(value);
        return { step: (step) => {
          const number = steps.lines.at(step);
          return number > 0 && lines.lasts.at(number - 1) === step && holds[lines.whys.at(number - 1)] === 1;
        } };
      }
      case "kind": return { step: (step) => steps.kinds.at(step) === value };
      case "is": return this.marked(value);
      case "frame": {
        const holds = this.framed(value);
        return { step: (step) => steps.performs.at(step) === 1 && holds[steps.places.at(step)] === 1 };
      }
      default: return this.worded(value, places);
    }
  }

  /**
   * Whether the event of a step accessed a register with a value, or gave it that; NO_REGISTER is any, null any value.
   * @private
   */
  accessed(step, index, wanted) {
    const { steps, places } = this.run;
    if (!steps.performs.at(step)) return false;
    const is = (register, value) => (index === NO_REGISTER || register === index)
      && (wanted === null || value === wanted);
    const number = steps.places.at(step), end = places.changesFrom.at(number + 1);
    const register = places.register.at(number);
    if (register !== NO_REGISTER && is(register, places.value.at(number))) return true;
    for (let at = places.changesFrom.at(number); at < end; at++) {
      if (is(places.changed.at(at), places.now.at(at)) && places.old.at(at) !== places.now.at(at)) return true;
    }
    return false;
  }

  /** @private */
  marked(value) {
    const { steps, unlike } = this.run, mark = MARK_KINDS.indexOf(value);
    if (value === UNLIKE) return { step: (step) => unlike?.[step] === 1 };
    if (value === "warning") return { step: (step) => steps.warned.at(step) === 1 };
    return { step: value === GONE ? (step) => steps.performs.at(step) === 1 && steps.isOnBranch(step)
      : (step) => steps.marks.at(step) === mark };
  }

  /**
   * Words in an event's text, or in its line's, its answer or its source: those of a line are found at its last step.
   * @private
   */
  worded(words, { text }) {
    const { steps, lines, places, script } = this.run;
    const events = this.haystack("events", places.texts.list).holds(words);
    const own = this.haystack("script", script).holds(words);
    const answers = this.haystack("answers", lines.answerTexts.list).holds(words);
    const sources = this.haystack("sources", lines.texts.list).holds(words);
    const line = (number) => number > 0 && (own[number - 1] === 1 || answers[lines.answers.at(number - 1)] === 1
      || sources[lines.sources.at(number - 1)] === 1);
    const ofEvent = (step) => steps.performs.at(step) === 1 && events[text.at(steps.places.at(step))] === 1;
    return { line, step: (step) => {
      const number = steps.lines.at(step);
      return ofEvent(step) || (number > 0 && lines.lasts.at(number - 1) === step && line(number));
    } };
  }

  /** By event, whether it has a frame of this kind, or with these octets. @private @returns {Uint8Array} */
  framed(holds) {
    const { places } = this.run, found = new Uint8Array(places.length);
    for (const list of [places.arrivals, places.sendings]) {
      for (let frame = 1; frame < list.event.length; frame++) {
        const digits = list.digits(frame);
        if (digits && holds(digits)) found[list.event.at(frame)] = 1;
      }
    }
    return found;
  }

  /**
   * @private
   * @param {((number: number) => boolean)[]|null} ofLines what must hold of a line without a step; null: none is found
   */
  hits(found, ofLines) {
    const { steps: { lines: lineOf }, lines, script } = this.run;
    const steps = new Numbers(Uint32Array), lit = new Numbers(Uint32Array);
    const add = (step, line) => {
      steps.push(step);
      lit.push(line);
    };
    let step = 0, number = 1;
    const addLines = (before) => {
      for (; number < before; number++) {
        const played = number <= lines.count, last = played ? lines.lasts.at(number - 1) : found.length - 1;
        if ((!played || lineOf.at(last) !== number) && ofLines.every((holds) => holds(number))) add(last, number);
      }
    };
    for (; step < found.length; step++) {
      if (ofLines && lineOf.at(step) > number) addLines(lineOf.at(step));
      if (found[step]) add(step, 0);
    }
    if (ofLines) addLines(script.length + 1);
    return { steps: steps.values.slice(0, steps.length), lines: lit.values.slice(0, lit.length) };
  }
}

/** The names of protocols that a frame can be sought by. */
function frameNames() {
  return [...TYPES.values(), ...["ICMP", "TCP", "UDP", "ICMPv6"]].map((name) => name.toLowerCase());
}

/**
 * What a word says of a frame: what its octets must be, as digits.
 * @returns {((digits: string) => boolean)|undefined}
 */
function frameTerm(word) {
  const digits = word.replaceAll(":", "").toUpperCase();
  if (digits && isDigits(digits)) return (frame) => hasOctetsAt(frame, digits);
  const name = word.toLowerCase();
  return frameNames().includes(name) ? (frame) => hasProtocol(frame, name) : undefined;
}

/** Whether octets stand in a frame, from a whole octet on. */
function hasOctetsAt(frame, digits) {
  let at = frame.indexOf(digits);
  while (at % 2 === 1) at = frame.indexOf(digits, at + 1);
  return at >= 0;
}

/**
 * Whether a frame has a protocol, by a few of its octets: one of its types, or that within IP.
 * @param {string} frame digits
 */
function hasProtocol(frame, name) {
  for (let at = 24; at + 4 <= frame.length; at += 8) {
    const type = (octetAt(frame, at) << 8) | octetAt(frame, at + 2), found = TYPE_WORDS.get(type);
    if (found === name) return true;
    if (found === "ipv4") return IP_WORDS.get(octetAt(frame, at + 22)) === name;
    if (found === "ipv6") return IP_WORDS.get(protocolWithin(frame, at + 16)) === name;
    if (found !== "vlan" && found !== "s-vlan") return false;
  }
  return false;
}

/** The names of types and of protocols within IP as they are sought. */
const TYPE_WORDS = new Map([...TYPES].map(([type, name]) => [type, name.toLowerCase()]));
const IP_WORDS = new Map([...IP_PROTOCOLS].map(([number, name]) => [number, name.toLowerCase()]));

/** The octet whose digits stand there. */
function octetAt(digits, at) {
  return (DIGIT_OF[digits.charCodeAt(at)] << 4) | DIGIT_OF[digits.charCodeAt(at + 1)];
}

/** The protocol behind the options of IPv6. @param {number} at where the first number of one stands, as digits */
function protocolWithin(frame, at) {
  let number = at, header = at + 68;
  while (byProtocol(octetAt(frame, number)) === "IPv6 options" && header + 4 <= frame.length) {
    number = header;
    header += 16 + 16 * octetAt(frame, header + 2);
  }
  return octetAt(frame, number);
}

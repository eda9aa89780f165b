// Two runs: which of their events belong together, and where they differ.

/** So many in a row must be the same in both where two runs meet again. */
const SAME_IN_A_ROW = 4;
/** So far ahead in either run it is sought where they meet; it is begun near, and gone on farther by this factor. */
const MOST_APART = 16_384, NEAR = 16, FARTHER = 8;
/** Where more octets of memory than these differ, it is told no more which event lets another one differ. */
const MOST_OCTETS_APART = 2 ** 21;
/** What stands for that of the other run which belongs to one, where there is none. */
const ALONE = 0xFFFFFFFF;
/** What a record's event has that tells its effect; the other fields tell what it was and what was answered. */
const EFFECTS = new Set(["registers", "memory", "frames", "gathered", "link", "interrupt"]);
/** What the settings of a run have that its machine is made of. */
const MACHINE_PARTS = ["base", "memory", "mac", "profile"];

/**
 * What was done, of an event's text: without what was answered. The value that a write wrote belongs to it.
 * @param {string} text as `read RDH 00000001`, `write RDT 00000007`, `rx: stored 0 60`
 */
function deedOf(text) {
  return (/^read \S+|^write \S+ \S+/.exec(text) ?? text.split(":", 1))[0];
}

/**
 * What happened in a run: its start, each event, each reverse step that took events back, each line that was refused.
 */
class Happenings {
  /** @param {Run} run @param {Texts} deeds of both runs */
  constructor(run, deeds) {
    this.run = run;
    const found = new Numbers(Uint32Array), done = new Numbers(Uint32Array);
    const { steps, places } = run, byText = new Uint32Array(places.texts.list.length);
    for (let step = 0; step < steps.length; step++) {
      let deed;
      if (steps.performs.at(step)) {
        const text = places.text.at(steps.places.at(step));
        byText[text] ||= deeds.numberOf(deedOf(places.texts.list[text])) + 1;
        deed = byText[text] - 1;
      } else {
        const words = this.words(step);
        if (words === "") continue;
        deed = deeds.numberOf(words);
      }
      found.push(step);
      done.push(deed);
    }
    this.length = found.length;
    /** By happening, its step and the number of what was done. */
    this.steps = found.values.slice(0, found.length);
    this.deeds = done.values.slice(0, done.length);
  }

  /** What was done at a step that performed no event; empty where nothing was. @private */
  words(step) {
    const { steps, lines } = this.run;
    if (step === 0) return "start";
    if (steps.backs.has(step)) return `back ${steps.backs.get(step)}`;
    if (steps.mark(step) !== "refused") return "";
    const { refused } = lines.source.line(lines.record(steps.lines.at(step)));
    return `refused ${steps.kind(step)} ${refused}`;
  }

  /** The happening that a step is, or the last one before it. */
  at(step) {
    let [low, high] = [0, this.length - 1];
    while (low < high) {
      const middle = (low + high + 1) >> 1;
      if (this.steps[middle] <= step) low = middle;
      else high = middle - 1;
    }
    return low;
  }

  /** The number of the event that a happening is; 0 where it is none. */
  event(index) {
    const { steps } = this.run, step = this.steps[index];
    return steps.performs.at(step) ? steps.places.at(step) : 0;
  }

  /** The text of the record of an event that is its line's only one; null of another. */
  text(number) {
    const { places, lines } = this.run, line = places.line(number);
    return lines.firsts.at(line - 1) === lines.lasts.at(line - 1) ? lines.source.only(lines.record(line)) : null;
  }

  /** The record of an event. */
  record(number) {
    const { places, lines } = this.run;
    return lines.source.line(places.record(number)).events[places.access.at(number) - 1];
  }
}

/** Whether the records of two events say the same, but for the numbers of these. */
function isSameEvent(one, number, other, otherNumber) {
  const text = one.text(number);
  if (text !== null && text === other.text(otherNumber)) return true;
  return fieldsApart(one.record(number), other.record(otherNumber)).length === 0;
}

/** The fields in which the records of two events differ. @returns {string[]} */
function fieldsApart(one, other) {
  const names = new Set([...Object.keys(one), ...Object.keys(other)]);
  names.delete("event");
  return [...names].filter((name) => JSON.stringify(one[name]) !== JSON.stringify(other[name]));
}

/**
 * What differs between the machines of two runs at their start, in words.
 * @param {Run} one @param {Run} other @returns {string[]}
 */
function startApart(one, other) {
  const parts = MACHINE_PARTS.filter((part) => JSON.stringify(one.settings[part]) !== JSON.stringify(other.settings[part]));
  return [...parts, ...REGISTERS.filter((_, index) => one.registers[index] !== other.registers[index]).map(([, name]) => name)];
}

/** Whether so many deeds in a row are the same from two places on; behind the end of both they are. */
function isMeeting(one, other, i, j) {
  for (let k = 0; k < SAME_IN_A_ROW; k++) if (one[i + k] !== other[j + k]) return false;
  return true;
}

/** A number for the deeds from a place on. */
function sumOfDeeds(deeds, from) {
  let sum = 0;
  for (let k = 0; k < SAME_IN_A_ROW; k++) sum = (Math.imul(sum, 0x01000193) ^ ((deeds[from + k] ?? -1) + 2)) | 0;
  return sum;
}

/**
 * Where two runs meet again that part at two places: how far that is in each, together least far.
 * @returns {[number, number]|null}
 */
function nextMeeting(one, other, i, j) {
  for (let far = NEAR; ; far *= FARTHER) {
    const reach = Math.min(far, MOST_APART), found = meetingWithin(one, other, i, j, reach);
    // (one that is as near as this has none before it that lies farther off in one run)
    if (found && (found[0] + found[1] <= reach || reach === MOST_APART)) return found;
    if (reach === MOST_APART) return null;
  }
}

/** The same where it lies within so many of either run. */
function meetingWithin(one, other, i, j, reach) {
  const places = new Map(), ends = [Math.min(reach, one.length - i), Math.min(reach, other.length - j)];
  for (let by = ends[0]; by >= 0; by--) places.set(sumOfDeeds(one, i + by), by);
  let best = null;
  for (let otherBy = 0; otherBy <= ends[1] && (!best || otherBy < best[0] + best[1]); otherBy++) {
    const by = places.get(sumOfDeeds(other, j + otherBy));
    const isNearer = by !== undefined && (!best || by + otherBy < best[0] + best[1]);
    if (isNearer && isMeeting(one, other, i + by, j + otherBy)) best = [by, otherBy];
  }
  return best;
}

/** What differs between two runs where both have come so far. */
class Apart {
  /** @param {Happenings[]} both */
  constructor(both) {
    this.both = both;
    this.registers = both.map(({ run }) => run.registers.slice());
    /**
     * The octets of memory that differ, by address: that of the one, and that of the other.
     * @type {Map<number, number[]>}
     */
    this.octets = new Map();
    /** The newest event that stands in each. */
    this.numbers = [0, 0];
    this.isLost = false;
    /** Registers that were changed since `begin`, octets that differ since then, and those that differed no more. */
    this.touched = [];
    this.fresh = new Set();
    this.mended = new Set();
  }

  /** Before what happens next. */
  begin() {
    this.touched.length = 0;
    this.fresh.clear();
    this.mended.clear();
    this.sights = this.sight();
  }

  /** What differs besides registers and memory. @private */
  sight() {
    const [one, other] = this.both.map(({ run: { places } }, side) => {
      const number = this.numbers[side];
      return [places.signals.at(number), places.frames.at(number), places.gatheredTexts[places.gathered.at(number)],
        places.at(number).sending?.count ?? 0];
    });
    return one.map((value, index) => value !== other[index]);
  }

  /** Goes over what happened in one run. @param {0|1} side @param {boolean} isKnown whether it was the same in both */
  go(side, index, isKnown = false) {
    const happenings = this.both[side], { steps, places } = happenings.run, step = happenings.steps[index];
    const to = steps.places.at(step);
    if (steps.performs.at(step)) {
      this.change(side, to, places.now, isKnown ? null : 2);
    } else {
      for (let at = this.numbers[side]; at !== to; at = places.before.at(at)) this.change(side, at, places.old, 1);
    }
    this.numbers[side] = to;
  }

  /** @private @param {1|2|null} which of a piece's octets stand then: those before or after; null: none is looked at */
  change(side, number, values, which) {
    const { places } = this.both[side].run, end = places.changesFrom.at(number + 1);
    for (let at = places.changesFrom.at(number); at < end; at++) {
      const index = places.changed.at(at);
      if (which) this.touched.push(index, this.registers[0][index] !== this.registers[1][index]);
      this.registers[side][index] = values.at(at);
    }
    if (which && !this.isLost) for (const piece of places.memoryOf(number)) this.write(side, piece, which);
  }

  /** @private */
  write(side, piece, which) {
    const before = octetsOf(piece[3 - which]), after = octetsOf(piece[which]);
    for (let i = 0; i < after.length; i++) {
      const address = piece[0] + i, pair = this.octets.get(address) ?? [before[i], before[i]];
      const wasApart = pair[0] !== pair[1];
      pair[side] = after[i];
      const isApart = pair[0] !== pair[1];
      if (isApart) this.octets.set(address, pair);
      else this.octets.delete(address);
      if (wasApart === isApart) continue;
      if (isApart && !this.mended.has(address)) this.fresh.add(address);
      if (!isApart && !this.fresh.delete(address)) this.mended.add(address);
    }
    this.isLost ||= this.octets.size > MOST_OCTETS_APART;
  }

  /** Whether anything differs that was the same at `begin`. */
  isWider() {
    if (this.fresh.size || this.isLost) return true;
    const { touched, registers: [one, other] } = this, seen = new Set();
    for (let at = 0; at < touched.length; at += 2) {
      const index = touched[at], isFirst = !seen.has(index);
      seen.add(index);
      if (isFirst && !touched[at + 1] && one[index] !== other[index]) return true;
    }
    return this.sight().some((isApart, index) => isApart && !this.sights[index]);
  }
}

/** Which happenings of two runs belong together, and where they differ. */
class Pairs {
  /** @param {Run} one @param {Run} other */
  constructor(one, other) {
    const deeds = new Texts();
    this.both = [new Happenings(one, deeds), new Happenings(other, deeds)];
    /** By happening of each, that of the other one which belongs to it. */
    this.partners = this.both.map(({ length }) => new Uint32Array(length).fill(ALONE));
    /**
     * Differences: which happenings of each they are, from one to another that is none of them. One of either, where
     * these belong together; else such as stand in one run alone.
     */
    this.differences = new Table({ from0: Uint32Array, end0: Uint32Array, from1: Uint32Array, end1: Uint32Array });
    /** How many pairs differ only in what differed before. */
    this.carried = 0;
    this.pair();
    for (const side of [0, 1]) this.both[side].run.unlike = this.unlike(side);
  }

  /** @private */
  pair() {
    const [one, other] = this.both, apart = new Apart(this.both);
    let i = 0, j = 0;
    while (i < one.length || j < other.length) {
      if (i < one.length && j < other.length && one.deeds[i] === other.deeds[j]) {
        this.partners[0][i] = j;
        this.partners[1][j] = i;
        this.weigh(apart, i++, j++);
        continue;
      }
      const [by, otherBy] = nextMeeting(one.deeds, other.deeds, i, j) ?? [one.length - i, other.length - j];
      this.add(i, i + by, j, j + otherBy);
      apart.begin();
      for (const end = i + by; i < end; i++) apart.go(0, i);
      for (const end = j + otherBy; j < end; j++) apart.go(1, j);
    }
  }

  /** Two that belong together: whether they differ. @private */
  weigh(apart, i, j) {
    const [one, other] = this.both, [number, otherNumber] = [one.event(i), other.event(j)];
    const isSame = number > 0 && isSameEvent(one, number, other, otherNumber);
    if (!isSame) apart.begin();
    apart.go(0, i, isSame);
    apart.go(1, j, isSame);
    if (isSame) return;
    const fields = number ? fieldsApart(one.record(number), other.record(otherNumber)) : [];
    const isOther = i === 0 ? startApart(one.run, other.run).length > 0
      : fields.some((field) => !EFFECTS.has(field)) || apart.isWider();
    if (isOther) this.add(i, i + 1, j, j + 1);
    else if (fields.length) this.carried += 1;
  }

  /** @private */
  add(from0, end0, from1, end1) {
    const at = this.differences.add();
    Object.entries({ from0, end0, from1, end1 }).forEach(([name, value]) => { this.differences[name][at] = value; });
  }

  /** By step of a run, whether it is a difference, or the step behind which one stands in the other run. @private */
  unlike(side) {
    const { run, steps } = this.both[side], found = new Uint8Array(run.steps.length);
    for (let at = 0; at < this.differences.length; at++) {
      const { from, end } = this.range(side, at);
      for (let index = from; index < end; index++) found[steps[index]] = 1;
      if (from === end) found[this.step(side, at)] = 1;
    }
    return found;
  }

  /** The happenings of a run that a difference is. @returns {{from: number, end: number}} */
  range(side, at) {
    return { from: this.differences[`from${side}`][at], end: this.differences[`end${side}`][at] };
  }

  /** The step at which a difference is shown in a run: its first one, or where it has none, that before it. */
  step(side, at) {
    const { from, end } = this.range(side, at);
    return this.both[side].steps[from < end ? from : from - 1];
  }

  /** How many differences begin before a step of a run, and whether one stands there. @returns {[number, boolean]} */
  rank(side, step) {
    let [low, high] = [0, this.differences.length];
    while (low < high) {
      const middle = (low + high) >> 1;
      if (this.step(side, middle) < step) low = middle + 1;
      else high = middle;
    }
    return [low, low < this.differences.length && this.step(side, low) === step];
  }
}

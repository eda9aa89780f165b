// The adapter's state at a place of the run: it goes forward and back by what each event changed.

const PAGE_OCTETS = 4_096;
/** A page that was never written. */
const ZEROS = new Uint8Array(PAGE_OCTETS);
/** Every so many events a snapshot is kept, from which a far place is reached. */
const SNAPSHOT_EVERY = 256;
/** So many octets snapshots may take: then each second one goes, and they come half as often. */
const MOST_SNAPSHOTS = 2 ** 28;
/** About how many octets the place of a page takes in a snapshot. */
const PAGE_PLACE = 40;

/** Guest memory in pages, those that were written. Snapshots share pages, which are copied when written. */
class Memory {
  /** @param {number} base its first address @param {number} size in octets; both are multiples of 4,096 */
  constructor(base, size) {
    this.base = base;
    this.size = size;
    this.end = base + size;
    /** @type {Map<number, Uint8Array>} by their addresses / 4,096 */
    this.pages = new Map();
    /** Those that no snapshot shares. @type {Set<number>} */
    this.own = new Set();
  }

  /** Whether these octets lie in it. @param {bigint} at @param {number} size */
  has(at, size) {
    return BigInt(this.base) <= at && at + BigInt(size) <= BigInt(this.end);
  }

  /** The page of an address. @returns {Uint8Array} */
  page(address) {
    return this.pages.get(Math.floor(address / PAGE_OCTETS)) ?? ZEROS;
  }

  octet(address) {
    return this.page(address)[address % PAGE_OCTETS];
  }

  /** @returns {Uint8Array} a copy; the range lies within memory */
  octets(address, count) {
    const octets = new Uint8Array(count);
    for (let i = 0; i < count; i++) octets[i] = this.octet(address + i);
    return octets;
  }

  /**
   * Writes octets, which lie within memory; their digits stand among letters, from a place on.
   * @param {Uint8Array} letters
   */
  write(address, count, letters, from) {
    for (let at = address, i = from, left = count; left > 0; ) {
      const page = this.writable(Math.floor(at / PAGE_OCTETS)), first = at % PAGE_OCTETS;
      const end = Math.min(PAGE_OCTETS, first + left);
      for (let j = first; j < end; j++, i += 2) {
        page[j] = (NIBBLES[letters[i]] << 4) | NIBBLES[letters[i + 1]];
      }
      at += end - first;
      left -= end - first;
    }
  }

  /** Whether these octets stand there, whose digits stand among letters. @param {Uint8Array} letters */
  holds(address, count, letters, from) {
    for (let at = address, i = from, left = count; left > 0; ) {
      const page = this.page(at), first = at % PAGE_OCTETS, end = Math.min(PAGE_OCTETS, first + left);
      for (let j = first; j < end; j++, i += 2) {
        if (page[j] !== ((NIBBLES[letters[i]] << 4) | NIBBLES[letters[i + 1]])) return false;
      }
      at += end - first;
      left -= end - first;
    }
    return true;
  }

  /** @private */
  writable(index) {
    let page = this.pages.get(index);
    if (!page || !this.own.has(index)) {
      page = page ? page.slice() : new Uint8Array(PAGE_OCTETS);
      this.pages.set(index, page);
      this.own.add(index);
    }
    return page;
  }

  share() {
    this.own.clear();
    return new Map(this.pages);
  }

  restore(pages) {
    this.pages = new Map(pages);
    this.own.clear();
  }
}

/** States of a run at some of its places, from which far ones are reached. */
class Snapshots {
  /** @param {Places} places */
  constructor(places) {
    this.places = places;
    this.every = SNAPSHOT_EVERY;
    /** By the numbers of their places, in the order in which they were kept; about how many octets they take. */
    this.kept = new Map();
    this.octets = 0;
  }

  /** Whether one is to be kept at a place. */
  isDue(number) {
    return this.places.depth.at(number) % this.every === 0;
  }

  /** Keeps one. @param {State} state */
  keep({ number, memory, registers }) {
    this.octets += PAGE_OCTETS * memory.own.size + PAGE_PLACE * memory.pages.size + registers.byteLength;
    this.kept.set(number, { registers: registers.slice(), pages: memory.share() });
    while (this.octets > MOST_SNAPSHOTS && this.kept.size > 2) this.thin();
  }

  /** Drops each second one. @private */
  thin() {
    this.every *= 2;
    const before = this.kept.size;
    for (const number of [...this.kept.keys()]) if (!this.isDue(number)) this.kept.delete(number);
    this.octets *= this.kept.size / before;
  }
}

/** Registers and memory at a place. What else a place has stands in the columns of places. */
class State {
  /**
   * @param {Places} places
   * @param {Uint32Array} registers at the start
   * @param {Memory} memory
   * @param {Snapshots} snapshots
   */
  constructor(places, registers, memory, snapshots) {
    Object.assign(this, { places, registers, memory, snapshots });
    /** Where it is: the number of the newest event that stands. */
    this.number = 0;
  }

  /** Another state of the same run, at the start: while this one reads on, the page shows that one. */
  twin() {
    const { base, size } = this.memory;
    const twin = new State(this.places, this.registers.slice(), new Memory(base, size), this.snapshots);
    twin.restoreBefore(0);
    return twin;
  }

  get place() {
    return this.places.at(this.number);
  }

  /** A register's value by its name, without an array's. */
  at(name) {
    return this.registers[INDEX_OF.get(name)];
  }

  /**
   * @param {number} number of an event whose event before is this place
   * @param {Given|null} given what was read of it just now
   */
  forward(number, given = null) {
    const { changesFrom, changed, now } = this.places, end = changesFrom.at(number + 1);
    for (let at = changesFrom.at(number); at < end; at++) this.registers[changed.at(at)] = now.at(at);
    if (given) this.writeGiven(given);
    else for (const [address, , after] of this.places.memoryOf(number)) this.write(address, after);
    this.number = number;
  }

  /** @private @param {Given} given */
  writeGiven({ pieces, from }) {
    for (let i = 0; i < pieces.length; i += 4) this.memory.write(pieces[i], pieces[i + 1], from, pieces[i + 3]);
  }

  /** @private @param {string} digits */
  write(address, digits) {
    this.memory.write(address, digits.length / 2, lettersOf(digits), 0);
  }

  backward() {
    const { number } = this, { before, changesFrom, changed, old } = this.places;
    const memory = this.places.memoryOf(number), first = changesFrom.at(number);
    for (let at = changesFrom.at(number + 1) - 1; at >= first; at--) this.registers[changed.at(at)] = old.at(at);
    for (const [address, octets] of memory) this.write(address, octets);
    this.number = before.at(number);
  }

  /** Goes to any place: step by step where it is near, and else from the snapshot before it. @param {number} target */
  goTo(target) {
    const { depth } = this.places, common = lastCommon(this.places, this.number, target);
    const far = depth.at(this.number) + depth.at(target) - 2 * depth.at(common);
    if (far > 2 * this.snapshots.every) {
      this.restoreBefore(target);
    } else {
      while (this.number !== common) this.backward();
    }
    for (const number of wayTo(this.places, this.number, target)) this.forward(number);
  }

  /** @private */
  restoreBefore(target) {
    const { kept } = this.snapshots;
    let number = target;
    while (!kept.has(number)) number = this.places.before.at(number);
    const { registers, pages } = kept.get(number);
    this.registers.set(registers);
    this.memory.restore(pages);
    this.number = number;
  }
}

/** The newest place that both come from. @param {Places} places */
function lastCommon({ before }, one, other) {
  while (one !== other) {
    if (one >= other) one = before.at(one);
    else other = before.at(other);
  }
  return one;
}

/** The places from behind one to a later one, in their order. @param {Places} places @returns {number[]} */
function wayTo({ before }, from, target) {
  const way = [];
  for (let number = target; number !== from; number = before.at(number)) way.push(number);
  return way.reverse();
}

/** The frames in the FIFO at a place, the first one first. @returns {Frame[]} */
function waiting(place) {
  const frames = [];
  for (let arrival = place.arrival; arrival && frames.length < place.frames; arrival = arrival.before) {
    frames.push(arrival);
  }
  return frames.reverse();
}

/** The newest frames that were sent, the newest first. @returns {Frame[]} */
function sentFrames(place, most) {
  const frames = [];
  for (let { sending } = place; sending && frames.length < most; sending = sending.before) frames.push(sending);
  return frames;
}

/** By name, the index of a register in the table. */
const INDEX_OF = new Map(REGISTERS.map(([, name], index) => [name, index]));

/** Whether an adapter of a profile has the register of a name. */
function isOfProfile(name, profile) {
  return profile === "adapter" || !BESIDES.has(name);
}

/** The array that a register is of, or its name where it is of none. */
function stemOf(name) {
  return name.replace(/\[\d+\]$/, "").replace(/^(RA[LH])\d+$/, "$1");
}

// Who changed this: the newest event, at a place or before it, that changed what is watched.

/**
 * What is asked about. Its text, as `data-watch` has it: `register RCTL`, `bits RCTL 2`, `octets 4112 8`, `link`,
 * `interrupt`, `frames`, `gathered`, `sent`; numbers are decimal.
 * @typedef {Object} Watch
 * @property {"register"|"octets"|"link"|"interrupt"|"frames"|"gathered"|"sent"} kind
 * @property {number} index of the register
 * @property {number} mask its bits
 * @property {string} bits the name of the bit or field; empty for the whole register
 * @property {number} address
 * @property {number} count of octets
 */

/** @param {string} text @returns {Watch} */
function watchOf(text) {
  const [kind, first, second] = text.split(" ");
  const watch = { kind, index: 0, mask: 0xFFFFFFFF, bits: "", address: 0, count: 0 };
  if (kind === "register") return { ...watch, index: INDEX_OF.get(first) };
  if (kind === "bits") {
    const mask = Number(second);
    const field = (FIELDS[stemOf(first)] ?? []).find(([, high, low]) => maskOf(high, low) === mask);
    return { ...watch, kind: "register", index: INDEX_OF.get(first), mask, bits: field ? field[0] : hex(mask, 8) };
  }
  return kind === "octets" ? { ...watch, address: Number(first), count: Number(second) } : watch;
}

/** The bits from a low one to a high one. */
function maskOf(high, low) {
  return ((high - low === 31 ? 0xFFFFFFFF : (1 << (high - low + 1)) - 1) << low) >>> 0;
}

/** @param {Watch} watch */
function watchText(watch) {
  switch (watch.kind) {
    case "register": return REGISTERS[watch.index][1] + (watch.bits ? `.${watch.bits}` : "");
    case "octets": return watch.count === 1 ? `the octet at ${addressText(watch.address)}`
      : `the octets ${rangeText(watch.address, watch.count)}`;
    case "link": return "the link";
    case "interrupt": return "the interrupt line";
    case "frames": return "the number of frames in the FIFO";
    case "gathered": return "the octets gathered for the next frame";
    default: return "the number of frames sent";
  }
}

/**
 * Whether an event changed what is watched.
 * @param {Places} places
 * @param {number} number of the event
 * @param {Watch} watch
 */
function changed(places, number, watch) {
  if (number === 0) return false;
  const isOther = (column, mask = ~0) => ((column.at(number) ^ column.at(places.before.at(number))) & mask) !== 0;
  switch (watch.kind) {
    case "register": return places.changedRegister(number, watch.index, watch.mask);
    case "octets":
      return places.mayTouch(number, watch.address, watch.count)
        && places.memoryOf(number).some((piece) => changedWithin(piece, watch.address, watch.count));
    case "link": return isOther(places.signals, LINK);
    case "interrupt": return isOther(places.signals, INTERRUPT);
    case "frames": return isOther(places.frames);
    case "gathered": return places.at(number).gathered !== places.at(number).before.gathered;
    default: return isOther(places.sending);
  }
}

/** Whether a piece of memory has an octet of the range that is another before and after. */
function changedWithin([address, before, after], from, count) {
  const first = Math.max(from, address);
  const end = Math.min(from + count, address + before.length / 2);
  if (first >= end) return false;
  const [low, high] = [2 * (first - address), 2 * (end - address)];
  return before.slice(low, high).toUpperCase() !== after.slice(low, high).toUpperCase();
}

/** The newest place, from an event on back, whose event changed what is watched. @returns {Place|null} */
function lastChange(places, number, watch) {
  for (let at = number; at !== 0; at = places.before.at(at)) {
    if (changed(places, at, watch)) return places.at(at);
  }
  return null;
}

/**
 * What is watched, before the event of the state's place and after it.
 * @param {State} state @param {Watch} watch
 * @returns {[string, string]}
 */
function sights(state, watch) {
  const { place } = state;
  const before = place.before ?? place;
  switch (watch.kind) {
    case "register": {
      const after = state.registers[watch.index];
      const change = place.registers.find(([index]) => index === watch.index);
      return [change ? change[1] : after, after].map((value) => partText(watch, value));
    }
    case "octets": {
      const after = state.memory.octets(watch.address, watch.count);
      return [digitsOf(octetsBefore(place, watch.address, after)), digitsOf(after)];
    }
    case "link": return [before, place].map(({ link }) => (link ? "up" : "down"));
    case "interrupt": return [before, place].map(({ interrupt }) => (interrupt ? "1" : "0"));
    case "frames": return [before, place].map(({ frames }) => String(frames));
    case "gathered": return [before, place].map(({ gathered }) => String(gathered.length / 2));
    default: return [before, place].map(({ sending }) => String(sending?.count ?? 0));
  }
}

/** Octets as they stood before the event of a place. @param {Uint8Array} after from the address on */
function octetsBefore(place, address, after) {
  const octets = after.slice();
  for (const [at, before] of place.memory) {
    const old = octetsOf(before);
    const first = Math.max(at, address);
    const end = Math.min(at + old.length, address + after.length);
    for (let i = first; i < end; i++) octets[i - address] = old[i - at];
  }
  return octets;
}

/** A register's value, or its watched bits: a bit as 0 or 1, a field as its number. */
function partText(watch, value) {
  if (watch.mask === 0xFFFFFFFF) return hex(value, 8);
  const lowest = watch.mask & -watch.mask;
  return String(((value & watch.mask) >>> 0) / (lowest >>> 0));
}

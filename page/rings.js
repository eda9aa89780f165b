// The descriptor rings: whose each descriptor is, what it says, where its buffer lies, and what is wrong with it.

const MOST_SHOWN = 64;
const DESCRIPTOR_OCTETS = 16;
const MOST_LENGTH = 16_380;
/** The most buffers that the drawing has room for. */
const MOST_BUFFERS = 10;
const BIT_NAMES = {
  rxStatus: ["DD", "EOP", "IXSM", "VP", "bit4", "TCPCS", "IPCS", "PIF"],
  rxErrors: ["CE", "SE", "SEQ", "bit3", "CXE", "TCPE", "IPE", "RXE"],
  txCommand: ["EOP", "IFCS", "IC", "RS", "RPS", "DEXT", "VLE", "IDE"],
  txStatus: ["DD", "EC", "LC", "TU", "bit4", "bit5", "bit6", "bit7"],
};
/** By side: name, first octet, number of octets of each field of a descriptor. */
const DESCRIPTOR_FIELDS = {
  rx: [["buffer", 0, 8], ["length", 8, 2], ["checksum", 10, 2], ["status", 12, 1], ["errors", 13, 1],
    ["special", 14, 2]],
  tx: [["buffer", 0, 8], ["length", 8, 2], ["CSO", 10, 1], ["command", 11, 1], ["status", 12, 1], ["CSS", 13, 1],
    ["special", 14, 2]],
};

/**
 * @typedef {Object} Ring
 * @property {"rx"|"tx"} side
 * @property {boolean} enabled
 * @property {bigint} base
 * @property {number} count
 * @property {number} head
 * @property {number} tail
 * @property {number} buffer octets of a receive buffer
 *
 * @typedef {Object} Descriptor
 * @property {number} index
 * @property {bigint} address
 * @property {"adapter"|"driver"} owner
 * @property {Uint8Array|null} octets null where it lies outside memory
 * @property {bigint} at where its buffer lies
 * @property {number} size of its buffer
 * @property {boolean} live its buffer counts
 * @property {string} trouble what is wrong with it first; empty where nothing is
 */

/** A ring as the registers set it up. @param {State} state @returns {Ring} */
function ringOf(state, side) {
  const [letter, control] = side === "rx" ? ["R", "RCTL"] : ["T", "TCTL"];
  const at = (name) => state.at(`${letter}D${name}`);
  return {
    side, enabled: ((state.at(control) >>> 1) & 1) === 1, base: (BigInt(at("BAH")) << 32n) | BigInt(at("BAL")),
    count: Math.floor(at("LEN") / DESCRIPTOR_OCTETS), head: at("H"), tail: at("T"),
    buffer: bufferSize(state.at("RCTL")),
  };
}

/** Whose a descriptor is: the adapter's are those from the head up to but not the tail, going round. */
function ownerOf({ count, head, tail }, index) {
  if (head >= count || tail >= count || index >= count) return "driver";
  const within = head <= tail ? head <= index && index < tail : head <= index || index < tail;
  return within ? "adapter" : "driver";
}

/** A descriptor as memory holds it, without what is wrong with it. @returns {Descriptor} */
function descriptorOf(state, ring, index) {
  const address = ring.base + BigInt(DESCRIPTOR_OCTETS * index);
  const owner = ownerOf(ring, index);
  const none = { index, address, owner, octets: null, at: 0n, size: 0, live: false, trouble: "it lies outside memory" };
  if (!state.memory.has(address, DESCRIPTOR_OCTETS)) return none;
  const octets = state.memory.octets(Number(address), DESCRIPTOR_OCTETS);
  const isExtended = ring.side === "tx" && (octets[11] & 0x20) !== 0;
  const live = owner === "adapter" || (ring.side === "rx" && (octets[12] & 1) !== 0);
  return {
    index, address, owner, octets, at: littleEndian(octets, 0, 8), live, isExtended, trouble: "",
    size: ring.side === "rx" ? ring.buffer : Number(littleEndian(octets, 8, 2)),
  };
}

/** A field of octets, the low one first. @returns {bigint} */
function littleEndian(octets, first, count) {
  let value = 0n;
  for (let i = count - 1; i >= 0; i--) value = (value << 8n) | BigInt(octets[first + i]);
  return value;
}

const overlap = (one, size, other, otherSize) =>
  size > 0 && otherSize > 0 && one < other + BigInt(otherSize) && other < one + BigInt(size);

/**
 * The buffers of live descriptors that lie within memory, if only in part, as index, address, size: of a long ring
 * this is
 * asked at each step.
 * @returns {[number, number, number][]}
 */
function claimsOf(state, ring) {
  const { memory } = state;
  if (ring.base > BigInt(memory.end)) return [];
  const base = Number(ring.base);
  const before = Math.max(0, Math.ceil((memory.base - base) / DESCRIPTOR_OCTETS));
  const inside = Math.min(ring.count, Math.floor((memory.end - base) / DESCRIPTOR_OCTETS));
  const claims = [];
  const isRx = ring.side === "rx";
  for (let index = before; index < inside; index++) {
    const address = base + DESCRIPTOR_OCTETS * index;
    // a ring lies at a multiple of 16, so no descriptor lies in two pages
    const page = memory.page(address);
    const from = address % PAGE_OCTETS;
    const isDone = isRx && (page[from + 12] & 1) !== 0;
    if (!isDone && ownerOf(ring, index) === "driver") continue;
    if (!isRx && (page[from + 11] & 0x20) !== 0) continue;
    // (one that lies at 2^40 or past it lies outside memory)
    if (page[from + 5] || page[from + 6] || page[from + 7]) continue;
    const at = (page[from] | (page[from + 1] << 8) | (page[from + 2] << 16)) + page[from + 3] * 2 ** 24
      + page[from + 4] * 2 ** 32;
    claims.push([index, at, isRx ? ring.buffer : page[from + 8] | (page[from + 9] << 8)]);
  }
  return claims;
}

/**
 * What is wrong with a live descriptor first, in the order of docs/debugger.md.
 * @param {[number, number, number][]} claims
 */
function troubleOf(state, ring, descriptor, claims) {
  const { at, size, live, index } = descriptor;
  if (!live) return "";
  if (ring.side === "tx") {
    if (descriptor.isExtended) return "its format is the extended one";
    if (size === 0) return "its length is 0";
    if (size > MOST_LENGTH) return `its length is above ${MOST_LENGTH}`;
  }
  if (!state.memory.has(at, size)) return "its buffer lies outside memory";
  if (overlap(at, size, ring.base, DESCRIPTOR_OCTETS * ring.count)) return "its buffer lies over the ring";
  const [from, end] = [Number(at), Number(at) + size];
  // the driver took the frame of one, and posted its buffer again as the other's
  const isPostedAgain = (one, first) =>
    first === from && !(descriptor.owner === "adapter" && ownerOf(ring, one) === "adapter");
  const other = claims.find(([one, first, count]) =>
    one !== index && count > 0 && first < end && from < first + count && !isPostedAgain(one, first));
  return other ? `its buffer lies over that of ${other[0]}` : "";
}

/** Whether a live descriptor's buffer lies over the other ring, which docs/debugger.md does not ask. */
function overOther(state, ring, { live, isExtended, at, size }) {
  const [side, words] = ring.side === "rx" ? ["tx", "transmit"] : ["rx", "receive"];
  const other = ringOf(state, side);
  const is = live && !isExtended && overlap(at, size, other.base, DESCRIPTOR_OCTETS * other.count);
  return is ? `its buffer lies over the ${words} ring` : "";
}

/** The first descriptor that is shown: all of a short ring, else those about the head. */
function shownFrom({ count, head }) {
  return count <= MOST_SHOWN ? 0 : Math.max(0, Math.min(head - 8, count - MOST_SHOWN));
}

/** The bits of a descriptor that are set, by their names. */
function bitsOf(side, octets) {
  const named = (names, octet) => names.filter((_, bit) => (octet >>> bit) & 1);
  return side === "rx" ? [...named(BIT_NAMES.rxStatus, octets[12]), ...named(BIT_NAMES.rxErrors, octets[13])]
    : [...named(BIT_NAMES.txCommand, octets[11]), ...named(BIT_NAMES.txStatus, octets[12])];
}

/** The names of a field's bits, where it has such. */
function bitNamesOf(side, field) {
  if (side === "rx") return { status: BIT_NAMES.rxStatus, errors: BIT_NAMES.rxErrors }[field];
  return { command: BIT_NAMES.txCommand, status: BIT_NAMES.txStatus }[field];
}

/** All that is shown of a ring. */
function ringView(state, side) {
  const ring = ringOf(state, side);
  const first = shownFrom(ring);
  const count = Math.min(MOST_SHOWN, ring.count - first);
  const shown = Array.from({ length: count }, (_, row) => descriptorOf(state, ring, first + row));
  const claims = shown.some(({ live }) => live) ? claimsOf(state, ring) : [];
  for (const one of shown) {
    if (one.octets) one.trouble = troubleOf(state, ring, one, claims) || overOther(state, ring, one);
  }
  return { ring, shown, first };
}

class RingPanel {
  constructor(app, side) {
    this.app = app;
    this.side = side;
    this.element = byId(side);
  }

  paint() {
    const view = ringView(this.app.state, this.side);
    const { ring } = view;
    this.view = view;
    setText(byId(`${this.side}-head`), this.headText(view));
    setAttribute(this.element, "data-head", ring.head);
    setAttribute(this.element, "data-tail", ring.tail);
    setAttribute(this.element, "data-count", ring.count);
    const key = this.key(view);
    if (key === this.shownKey) return;
    this.shownKey = key;
    if (ring.count === 0) {
      this.element.replaceChildren();
      return;
    }
    if (!this.element.firstChild) {
      this.drawing = new RingDrawing(this.app, this.side);
      this.element.replaceChildren(this.drawing.element, this.table());
    }
    this.drawing.paint(view);
    this.paintRows(view);
  }

  /** All that the drawing and the table go by. @private */
  key({ ring, shown }) {
    const octets = shown.map((one) => `${one.octets ? digitsOf(one.octets) : "-"} ${one.trouble}`);
    const touched = this.app.changes ? this.touched(ring, shown) : [];
    return [ring.base, ring.count, ring.head, ring.tail, ring.buffer, ring.enabled, ...octets, ...touched].join();
  }

  /** What the present step changed of the ring and of its buffers. @private */
  touched(ring, shown) {
    return this.app.place.memory.map(([address, before]) => [BigInt(address), before.length / 2])
      .filter(([at, size]) => overlap(at, size, ring.base, DESCRIPTOR_OCTETS * ring.count)
        || shown.some((one) => one.live && overlap(at, size, one.at, one.size)));
  }

  /** @private */
  headText({ ring, shown, first }) {
    if (ring.count === 0) return "no descriptors";
    const index = (name, value) => `${name} ${value}${value >= ring.count ? " (past the last)" : ""}`;
    const part = shown.length < ring.count ? `, here ${first} to ${first + shown.length - 1}` : "";
    return `${counted(ring.count, "descriptor")} at ${addressText(ring.base)}${part} · ${index("head", ring.head)} · `
      + `${index("tail", ring.tail)} · ${ring.side === "rx" ? `buffers of ${ring.buffer} octets · ` : ""}`
      + (ring.enabled ? "enabled" : "disabled");
  }

  /** @private */
  table() {
    const names = ["#", "whose", "buffer", "length", "bits"];
    const head = make("tr", {}, ...names.map((name) => make("th", { scope: "col" }, name)));
    this.body = make("tbody", {});
    this.rowKeys = [];
    return make("div", { class: "scroll" }, make("table", { class: "descriptors" }, make("thead", {}, head),
      this.body));
  }

  /** Makes the rows that differ from those that stand there. @private */
  paintRows({ ring, shown }) {
    shown.forEach((one, row) => {
      const { index, owner, octets, trouble } = one;
      const touched = this.touches(one, 0, DESCRIPTOR_OCTETS) ? this.app.step : "";
      const key = [ring.base, index, owner, octets && digitsOf(octets), trouble, index === ring.head,
        index === ring.tail, touched].join();
      if (key === this.rowKeys[row]) return;
      this.rowKeys[row] = key;
      const fresh = this.row(ring, one);
      if (this.body.children[row]) morph(this.body.children[row], fresh);
      else this.body.append(fresh);
    });
    while (this.body.children.length > shown.length) this.body.lastChild.remove();
    this.rowKeys.length = shown.length;
  }

  /** Whether the present step changed octets of a descriptor. @private */
  touches(one, first, count) {
    return this.app.changes && one.octets !== null
      && this.app.place.memory.some((piece) => changedWithin(piece, Number(one.address) + first, count));
  }

  /** @private */
  row(ring, one) {
    const { index } = one;
    const hands = [index === ring.head ? "head ▸" : "", index === ring.tail ? "tail ◂" : ""].filter(Boolean);
    const cells = [
      make("th", { scope: "row" }, String(index), ...hands.map((hand) => make("span", { class: "hand" }, hand))),
      make("td", {}, make("span", { class: `owner ${one.owner}` }, one.owner)),
    ];
    const trouble = one.trouble
      ? [make("div", { class: "trouble" }, make("span", { "aria-hidden": "true" }, "⚠\uFE0E "), one.trouble)] : [];
    if (one.octets) {
      cells.push(make("td", {}, this.field(one, "buffer")), make("td", {}, this.field(one, "length")),
        make("td", {}, ...this.bitFields(one), ...trouble));
    } else {
      cells.push(make("td", { colspan: 3 }, ...trouble));
    }
    return make("tr", {
      "data-descriptor": index, "data-owner": one.owner, "data-trouble": one.trouble, "data-live": one.live ? "" : null,
    }, ...cells);
  }

  /** A field as a button that asks who changed it; its tip has all fields. @private */
  field(one, name) {
    const [, first, count] = DESCRIPTOR_FIELDS[this.side].find(([field]) => field === name);
    const address = Number(one.address) + first;
    const value = littleEndian(one.octets, first, count);
    const text = name === "length" ? String(value) : name === "buffer" ? addressText(value) : hex(value, 2 * count);
    return this.ask(one, name, address, count, text, this.touches(one, first, count));
  }

  /** @private */
  ask(one, name, address, count, text, lit) {
    return askButton(`octets ${address} ${count}`, {
      class: "field", "data-field": name, "data-changed": lit ? "" : null,
      title: this.tip(one),
      "aria-label": `descriptor ${one.index}, ${name} ${text}${lit ? ", changed by this step" : ""}: `
        + "who changed it last?",
    }, text);
  }

  /**
   * The fields besides buffer and length: status and command by their bits, the others where they are not 0.
   * @private
   */
  bitFields(one) {
    return DESCRIPTOR_FIELDS[this.side].slice(2).flatMap(([name, first, count]) => {
      const names = bitNamesOf(this.side, name);
      const value = Number(littleEndian(one.octets, first, count));
      const lit = this.touches(one, first, count);
      if (value === 0 && !lit && name !== "status") return [];
      const set = names ? names.filter((_, bit) => (value >>> bit) & 1).join(" ") : hex(value, 2 * count);
      return [this.ask(one, name, Number(one.address) + first, count, `${name} ${set || "–"}`, lit)];
    });
  }

  /** All fields of a descriptor, as the tip of each says them. @private */
  tip(one) {
    one.tip ??= this.fieldsText(one);
    return one.tip;
  }

  /** @private */
  fieldsText(one) {
    const fields = DESCRIPTOR_FIELDS[this.side].map(([name, first, count]) => {
      const value = littleEndian(one.octets, first, count);
      return `${name} ${name === "length" ? value : hex(value, 2 * count)}`;
    });
    return `descriptor ${one.index} at ${addressText(one.address)}, the ${one.owner}’s: ${fields.join(", ")}; `
      + `${bitsOf(this.side, one.octets).join(" ") || "no bit is set"}${one.trouble ? `; ${one.trouble}` : ""}`;
  }
}

// Frames that wait in the FIFO, and those that were sent.

const MOST_FRAMES = 8;
/** So many rows of frames are kept, those that are not shown now too: with what was opened in them. */
const MOST_ROWS = 1_024;
const LEAST_FRAME = 14;
const VLAN_TYPE = 0x8100;

/** An Ethernet address. @param {Uint8Array} octets six of them */
function macText(octets) {
  return [...octets].map((octet) => PAIRS[octet]).join(":");
}

/** What kind of address a destination is. */
function kindOfAddress(octets) {
  if (octets.every((octet) => octet === 0xFF)) return "broadcast";
  return octets[0] & 1 ? "group" : "";
}

/** The parts of a frame: name, text. @param {Uint8Array} octets */
function frameParts(octets) {
  if (octets.length < LEAST_FRAME) return [["octets", counted(octets.length, "octet")]];
  const word = (at) => (octets[at] << 8) | octets[at + 1];
  const kind = kindOfAddress(octets.subarray(0, 6));
  const parts = [["to", macText(octets.subarray(0, 6)) + (kind ? ` (${kind})` : "")],
    ["from", macText(octets.subarray(6, 12))]];
  let at = 12;
  if (word(at) === VLAN_TYPE && octets.length >= LEAST_FRAME + 4) {
    const tag = word(14);
    parts.push(["tag", `VLAN ${tag & 0xFFF} priority ${tag >>> 13}${(tag >>> 12) & 1 ? " CFI" : ""}`]);
    at = 16;
  }
  const type = word(at);
  parts.push(type <= MOST_LENGTH_FIELD ? ["length", String(type)]
    : ["type", hex(type, 4) + (TYPES.has(type) ? ` ${TYPES.get(type)}` : "")]);
  parts.push(["", counted(octets.length, "octet")]);
  return parts;
}

/** Octets in lines of so many, with their letters. */
function octetLines(octets, across) {
  const lines = [];
  for (let at = 0; at < octets.length; at += across) {
    const part = octets.subarray(at, at + across);
    const letters = [...part].map((octet) => (octet >= 0x20 && octet < 0x7F ? String.fromCharCode(octet)
      : ".")).join("");
    lines.push(`${hex(at, 4)}  ${[...part].map((octet) => PAIRS[octet]).join(" ").padEnd(3 * across)} ${letters}`);
  }
  return lines.join("\n");
}

const NARROW = matchMedia("(max-width: 560px)");

/** Whether the window is a phone's. */
function isNarrow() {
  return NARROW.matches;
}

/** What is opened where it is wanted: its parts are made then. */
function details(words, parts) {
  const element = make("details", {}, make("summary", { tabindex: -1 }, words));
  element.addEventListener("toggle", () => element.append(...parts()), { once: true });
  return element;
}

/** A protocol of a frame: which octets it has, and its fields. @param {Layer} layer */
function layerElement({ name, at, end, fields, trouble }) {
  const range = end > at ? `octets ${at} to ${end - 1}` : "no octets";
  const sign = make("span", { "aria-hidden": "true" }, "⚠\uFE0E ");
  const wrong = trouble ? [make("p", { class: "trouble" }, sign, trouble)] : [];
  return make("section", { class: "layer", "data-layer": name },
    make("h4", {}, name, make("span", { class: "quiet" }, ` ${range}`)), ...wrong,
    make("dl", {}, ...fields.map(([field, text]) => make("div", {}, make("dt", {}, field), make("dd", {}, text)))));
}

class Frames {
  constructor(app) {
    this.app = app;
    /** Rows of frames that were shown, by list and number. */
    this.items = new Map();
  }

  paint() {
    const { place } = this.app;
    const fifo = waiting(place);
    setText(byId("fifo-head"), fifo.length ? `${counted(fifo.length, "frame")}, the first one first` : "empty");
    this.list(byId("fifo"), fifo.slice(0, MOST_FRAMES), fifo.length - MOST_FRAMES);
    const count = place.sending?.count ?? 0;
    setText(byId("wire-head"), count ? `${counted(count, "frame")} sent, the newest first` : "nothing was sent");
    this.gathered(byId("gathered"), place.gathered);
    this.list(byId("wire"), sentFrames(place, MOST_FRAMES), count - MOST_FRAMES);
    setAttribute(byId("wire"), "data-count", count);
    setAttribute(byId("fifo"), "data-count", fifo.length);
  }

  /** What is gathered for the next frame to be sent. @private */
  gathered(element, digits) {
    setHidden(element, digits === "");
    setAttribute(element, "data-octets", digits);
    if (digits === "") return;
    setText(element.querySelector("summary"), `${counted(digits.length / 2, "octet")} gathered for the next frame`);
    setText(element.querySelector("pre"), octetLines(octetsOf(digits), isNarrow() ? 8 : 12));
  }

  /** @private */
  list(element, frames, more) {
    const isNew = (frame) => this.app.changes && frame.place.number === this.app.number;
    if (this.items.size > MOST_ROWS) this.items.clear();
    const items = frames.map((frame) => {
      const item = this.kept(`${frame.list.field} ${frame.number}`, () => this.item(frame));
      setAttribute(item, "data-changed", isNew(frame) ? "" : null);
      return item;
    });
    if (more > 0) {
      const rest = this.kept(element.id, () => make("li", { class: "quiet" }));
      setText(rest, `and ${counted(more, "frame")} more`);
      items.push(rest);
    }
    arrange(element, items);
  }

  /** A row that was made for this, or that is made now. @private */
  kept(key, made) {
    if (!this.items.has(key)) this.items.set(key, made());
    return this.items.get(key);
  }

  /** @private */
  item(frame) {
    const source = make("button", { type: "button", class: "from", tabindex: -1, "data-step": frame.place.step },
      `event ${frame.place.number}, line ${frame.place.line}`);
    if (frame.octets === null) {
      return make("li", { class: "frame" }, make("p", {}, "a frame whose octets are not in the record "), source);
    }
    const octets = octetsOf(frame.octets);
    const parts = frameParts(octets).map(([name, text]) =>
      make("span", { class: `part part-${name || "size"}` }, name ? make("i", {}, `${name} `) : "", text));
    const layers = layersOf(octets), summary = frameSummary(layers);
    return make("li", { class: "frame", "data-octets": frame.octets.toUpperCase() }, make("p", {}, ...parts),
      ...(summary ? [make("p", { class: "part-summary" }, summary)] : []), source,
      details("opened", () => layers.map(layerElement)),
      details("octets", () => [make("pre", {}, octetLines(octets, isNarrow() ? 8 : 12))]));
  }
}

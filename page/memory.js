// Guest memory: a map of all of it, and its octets about a place.

const MAP_CELLS = 1024;
const MAP_COLUMNS = 64;
const ROWS_SHOWN = 16;

/** What the map shows, the later ones over the earlier ones: name, sign in the legend, words. */
const MAP_KINDS = [
  ["zero", "", "zeros"], ["filled", "", "not zero"], ["buffer", "", "buffer in use"], ["ring", "", "ring"],
  ["touched", "", "changed by this step"],
];

/** Up to so much memory the map shows all of it. */
const MAPPED_WHOLE = 16_777_216;

/** What it shows at least of more. */
const MAPPED_LEAST = 65_536;

/**
 * What the map shows: all of memory, or of a large one the least part that has each octet which the run changes and
 * begins at a multiple of its size, a power of 2.
 * @returns {[number, number]}
 */
function mappedRange(memory, touched) {
  if (memory.size <= MAPPED_WHOLE) return [memory.base, memory.end];
  let [first, last] = [touched[0], touched[1] - 1];
  if (first > last) [first, last] = [memory.base, memory.base];
  let size = MAPPED_LEAST;
  while (Math.floor(first / size) !== Math.floor(last / size)) size *= 2;
  const from = first - first % size;
  return [Math.max(from, memory.base), Math.min(from + size, memory.end)];
}

/**
 * Whether an octet is not zero, by fours: the map's cells begin and end at multiples of four.
 * @param {Uint8Array} octets
 */
function hasOctets(octets) {
  const words = new Uint32Array(octets.buffer, octets.byteOffset, octets.length >> 2);
  for (let i = 0; i < words.length; i++) {
    if (words[i] !== 0) return true;
  }
  return false;
}

/** Whether octets are the same. @param {Uint8Array} one @param {Uint8Array} other */
function areSame(one, other) {
  return one.length === other.length && one.every((octet, at) => octet === other[at]);
}

class MemoryPanel {
  constructor(app) {
    this.app = app;
    ({ base: this.base, end: this.end } = app.state.memory);
    this.grow();
    this.address = this.base;
    this.focus = this.base;
    this.map = byId("map");
    this.grid = byId("octets");
    NARROW.addEventListener("change", () => app.paint(), { signal: app.ending.signal });
    byId("memory-form").addEventListener("submit", (event) => {
      event.preventDefault();
      this.showTyped();
    });
    this.map.addEventListener("click", (event) => this.clicked(event));
    this.grid.addEventListener("keydown", (event) => this.keyed(event));
    byId("map-legend").replaceChildren(...MAP_KINDS.slice(1).map(([name, , words]) =>
      make("li", {}, make("span", { class: `swatch map-${name}` }), words)),
    make("li", {}, make("span", { class: "swatch map-shown" }), "shown below"));
    this.makeRows();
    /** The buttons of parts of memory, by what they show. @type {Map<string, HTMLElement>} */
    this.regionButtons = new Map();
  }

  /** The map takes what was read since. */
  grow() {
    [this.mapFrom, this.mapEnd] = mappedRange(this.app.state.memory, this.app.run.touched);
  }

  /** @private */
  showTyped() {
    const box = byId("address");
    const address = parseInt(box.value, 16);
    const is = /^(0x)?[0-9a-f]+$/i.test(box.value.trim()) && address >= this.base && address < this.end;
    setAttribute(box, "aria-invalid", is ? null : "true");
    if (is) this.showAt(address);
  }

  /** Shows the octets from an address on. */
  showAt(address) {
    this.show(address, true);
    this.paint();
  }

  /** Sets what is shown: the octets about an address, which stay where they are if it is among them. */
  show(address, exact = false) {
    const across = this.across();
    this.focus = Math.max(this.base, Math.min(this.end - 1, address));
    if (!exact && this.focus >= this.address && this.focus < this.address + ROWS_SHOWN * across) return;
    const row = Math.floor(this.focus / across) - (exact ? 0 : 2);
    const last = this.end / across - ROWS_SHOWN;
    this.address = Math.max(this.base / across, Math.min(row, last)) * across;
  }

  across() {
    return isNarrow() ? 8 : 16;
  }

  /** @private */
  makeRows() {
    const across = this.across();
    this.made = across;
    this.rows = Array.from({ length: ROWS_SHOWN }, () => {
      const address = make("span", { class: "address", role: "rowheader" });
      const cells = Array.from({ length: across }, () => {
        const text = document.createTextNode("");
        return { text, element: make("span", { class: "octet", role: "gridcell", tabindex: "-1" }, text), octet: -1 };
      });
      const letters = make("span", { class: "letters", "aria-hidden": "true" });
      const element = make("div", { class: "octets-row", role: "row" }, address, ...cells.map((cell) => cell.element),
        letters);
      return { element, address, cells, letters, marks: "", octets: NO_OCTETS, before: NO_OCTETS };
    });
    this.grid.replaceChildren(...this.rows.map((row) => row.element));
  }

  /** Shows what the newest event that changed memory did there. */
  showNewest() {
    const { places } = this.app.run;
    let { number } = this.app;
    while (number && !places.at(number).writes) number = places.before.at(number);
    if (number) this.show(places.from.at(number));
  }

  /** Follows what the present step changed. */
  follow() {
    const { place, changes } = this.app;
    if (!changes || !place.writes || !byId("follow").checked) return;
    this.show(place.all.from.at(place.number));
  }

  paint() {
    if (this.made !== this.across()) {
      this.makeRows();
      this.address -= this.address % this.across();
    }
    const across = this.across();
    const count = ROWS_SHOWN * across;
    this.address = Math.max(this.base, Math.min(this.address, this.end - count));
    if (this.focus < this.address || this.focus >= this.address + count) this.focus = this.address;
    const octets = this.app.state.memory.octets(this.address, count);
    const before = this.app.changes ? octetsBefore(this.app.place, this.address, octets) : octets;
    const part = (of, index) => of.subarray(index * across, (index + 1) * across);
    const painted = this.rows.filter((row, index) =>
      this.paintRow(row, this.address + index * across, part(octets, index), part(before, index)));
    setAttribute(this.grid, "data-address", this.address);
    if (painted.length) setAttribute(this.grid, "data-octets", digitsOf(octets));
    const box = byId("address");
    if (document.activeElement !== box) {
      box.value = addressText(this.address);
      setAttribute(box, "aria-invalid", null);
    }
    this.regions();
    this.paintMap();
  }

  /** What marks octets of a row besides what they are: the focus, and what was asked. @private */
  marksOf(address) {
    const { asked } = this.app, at = this.focus - address;
    const isAsked = asked !== null && asked.watch.kind === "octets";
    return `${address} ${at >= 0 && at < this.made ? at : ""} ${isAsked ? `${asked.watch.address} ${asked.watch.count}` : ""}`;
  }

  /** Paints a row where it is another one. @private @returns {boolean} whether it is */
  paintRow(row, address, octets, before) {
    const marks = this.marksOf(address);
    if (row.marks === marks && areSame(row.octets, octets) && areSame(row.before, before)) return false;
    Object.assign(row, { marks, octets: octets.slice(), before: before.slice() });
    setText(row.address, addressText(address));
    let letters = "";
    let changedInRow = false;
    row.cells.forEach((cell, index) => {
      const [octet, old] = [octets[index], before[index]];
      const at = address + index;
      const lit = octet !== old;
      changedInRow ||= lit;
      letters += octet >= 0x20 && octet < 0x7F ? String.fromCharCode(octet) : ".";
      const isFocus = at === this.focus;
      const isSelected = this.isSelected(at);
      if (cell.octet === octet && cell.old === old && cell.at === at && cell.isFocus === isFocus
        && cell.isSelected === isSelected) return;
      Object.assign(cell, { octet, old, at, isFocus, isSelected });
      cell.text.nodeValue = PAIRS[octet];
      const { element } = cell;
      setAttribute(element, "data-watch", `octets ${at} 1`);
      setAttribute(element, "data-changed", lit ? "" : null);
      setAttribute(element, "data-old", lit ? PAIRS[old] : null);
      setAttribute(element, "data-zero", octet === 0 ? "" : null);
      setAttribute(element, "tabindex", isFocus ? 0 : -1);
      setAttribute(element, "data-selected", isSelected ? "" : null);
      setAttribute(element, "aria-label", `${addressText(at)}: ${PAIRS[octet]}${lit ? `, was ${PAIRS[old]}` : ""}`);
    });
    setAttribute(row.element, "data-changed", changedInRow ? "" : null);
    setText(row.letters, letters);
    return true;
  }

  /** @private */
  isSelected(address) {
    const { asked } = this.app;
    return asked !== null && asked.watch.kind === "octets" && address >= asked.watch.address
      && address < asked.watch.address + asked.watch.count;
  }

  /** @private */
  keyed(event) {
    if (event.key === "Enter" && event.target.dataset.watch) this.app.ask(event.target.dataset.watch);
    const across = this.across();
    const by = { ArrowLeft: -1, ArrowRight: 1, ArrowUp: -across, ArrowDown: across, PageUp: -ROWS_SHOWN * across,
      PageDown: ROWS_SHOWN * across }[event.key];
    if (by === undefined || event.ctrlKey || event.altKey || event.metaKey) return;
    event.preventDefault();
    event.stopPropagation();
    const focus = Math.max(this.base, Math.min(this.end - 1, this.focus + by));
    const count = ROWS_SHOWN * across;
    while (focus < this.address) this.address -= Math.abs(by) >= count ? count : across;
    while (focus >= this.address + count) this.address += Math.abs(by) >= count ? count : across;
    this.focus = focus;
    this.paint();
    const at = this.focus - this.address;
    this.rows[Math.floor(at / across)].cells[at % across].element.focus({ preventScroll: true });
  }

  /** @private */
  clicked(event) {
    const box = this.map.getBoundingClientRect();
    const { columns, rows } = this.shape(box.width);
    const column = Math.floor(((event.clientX - box.left) / box.width) * columns);
    const row = Math.floor(((event.clientY - box.top) / box.height) * rows);
    this.showAt(Math.min(this.mapEnd - 1, this.mapFrom + (row * columns + column) * this.cell()));
  }

  /** @private */
  shape(width) {
    const columns = MAP_COLUMNS;
    return { columns, rows: MAP_CELLS / columns, side: Math.max(5, Math.min(9, Math.floor(width / columns))) };
  }

  /** How many octets a cell of the map stands for. @private */
  cell() {
    return (this.mapEnd - this.mapFrom) / MAP_CELLS;
  }

  /** The parts of memory that mean something here: rings, buffers in use, what this step changed. */
  parts() {
    const { app } = this;
    const parts = [];
    for (const { side, view } of app.rings) {
      const { ring, shown } = view;
      if (ring.count === 0) continue;
      parts.push({ kind: "ring", words: `${side} ring`, at: ring.base, size: DESCRIPTOR_OCTETS * ring.count });
      for (const one of shown) {
        if (one.live && one.octets && !one.isExtended && one.size) {
          parts.push({ kind: "buffer", words: `${side} buffer ${one.index}`, at: one.at, size: one.size });
        }
      }
    }
    if (app.changes) parts.push(...this.touched());
    return parts.filter(({ at }) => at >= BigInt(this.base) && at < BigInt(this.end));
  }

  /** What the present step changed, pieces that touch each other as one. @private */
  touched() {
    const runs = [];
    for (const [address, before] of this.app.place.memory) {
      const last = runs[runs.length - 1];
      if (last && address - (last.at + last.size) <= 16) last.size = address + before.length / 2 - last.at;
      else runs.push({ at: address, size: before.length / 2 });
    }
    return runs.map(({ at, size }) => ({ kind: "touched", words: "changed", at: BigInt(at), size }));
  }

  /** @private */
  regions() {
    const parts = this.parts();
    this.shownParts = parts;
    const most = 14;
    const order = [...parts.filter(({ kind }) => kind === "touched"),
      ...parts.filter(({ kind }) => kind !== "touched")];
    const key = order.map(({ words, at, size }) => `${words} ${at} ${size}`).join();
    if (key === this.regionsKey) return;
    this.regionsKey = key;
    const before = this.regionButtons, buttons = new Map();
    for (const part of order.slice(0, most)) {
      const { words, at, size } = part, own = `${words} ${at} ${size}`;
      if (!buttons.has(own)) buttons.set(own, before.get(own) ?? this.regionButton(part));
    }
    this.regionButtons = buttons;
    const more = order.length - most;
    arrange(byId("regions"), [...buttons.values(),
      ...(more > 0 ? [make("span", { class: "quiet" }, `and ${more} more`)] : [])]);
  }

  /** @private */
  regionButton({ kind, words, at, size }) {
    return make("button", { type: "button", class: `region map-${kind}`, "data-show": at, tabindex: -1 },
      make("span", {}, words), ` ${addressText(at)}–${addressText(at + BigInt(size) - 1n)}`);
  }

  /** @private */
  paintMap() {
    const cell = this.cell();
    const filled = this.filledCells(cell);
    const key = [widthOf(this.map), this.mapFrom, cell, window.devicePixelRatio, palette.version, this.address,
      this.across(), this.regionsKey, filled].join();
    if (key === this.mapKey) return;
    this.mapKey = key;
    const { columns, rows, side } = this.shape(widthOf(this.map));
    const { context, width } = sized(this.map, rows * side);
    const across = width / columns;
    const fill = (kind, from, end) => {
      context.fillStyle = palette[`map-${kind}`];
      const last = Math.min(MAP_CELLS, Math.ceil(end / cell));
      for (let index = Math.max(0, Math.floor(from / cell)); index < last; index++) {
        const [x, y] = [(index % columns) * across, Math.floor(index / columns) * side];
        context.fillRect(x + 0.5, y + 0.5, across - 1, side - 1);
      }
    };
    context.fillStyle = palette["map-zero"];
    context.fillRect(0, 0, width, rows * side);
    context.fillStyle = palette.panel;
    for (let column = 0; column <= columns; column++) context.fillRect(column * across - 0.5, 0, 1, rows * side);
    for (let row = 0; row <= rows; row++) context.fillRect(0, row * side - 0.5, width, 1);
    filled.forEach((index) => fill("filled", index * cell, (index + 1) * cell));
    for (const wanted of ["buffer", "ring", "touched"]) {
      for (const { kind, at, size } of this.shownParts) {
        const from = Number(at) - this.mapFrom;
        if (kind === wanted) fill(kind, from, from + size);
      }
    }
    const shown = ROWS_SHOWN * this.across();
    const from = this.address - this.mapFrom;
    const [first, last] = [Math.floor(from / cell), Math.floor((from + shown - 1) / cell)];
    context.strokeStyle = palette.ink;
    for (let index = Math.max(0, first); index <= Math.min(MAP_CELLS - 1, last); index++) {
      context.strokeRect((index % columns) * across + 0.5, Math.floor(index / columns) * side + 0.5, across - 1,
        side - 1);
    }
  }

  /** The cells of the map in which an octet is not zero. @private */
  filledCells(cell) {
    const found = new Set();
    for (const [index, octets] of this.app.state.memory.pages) {
      const at = index * PAGE_OCTETS - this.mapFrom;
      if (at < 0 || at >= this.mapEnd - this.mapFrom) continue;
      for (let one = Math.floor(at / cell); one * cell < at + PAGE_OCTETS; one++) {
        const part = octets.subarray(Math.max(0, one * cell - at), (one + 1) * cell - at);
        if (!found.has(one) && hasOctets(part)) found.add(one);
      }
    }
    return [...found].sort((one, other) => one - other);
  }
}

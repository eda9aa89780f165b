// The registers by name, with their bits.

/** Where each group of registers ends, by offset. */
const GROUPS = [
  ["General", 0xC0], ["Interrupts", 0x100], ["Receive", 0x400, [0x2800, 0x3000]],
  ["Transmit", 0x1000, [0x3800, 0x4000]], ["Memory of the adapter", 0x2800], ["Counters", 0x5000], ["Filters", 0x10000],
];
const SPEEDS = [10, 100, 1000, 1000];
const BUFFER_SIZES = [[2048, 1024, 512, 256], [2048, 16384, 8192, 4096]];

/** How many octets a receive buffer has, by RCTL's BSIZE and BSEX. */
function bufferSize(rctl) {
  return BUFFER_SIZES[(rctl >>> 25) & 1][(rctl >>> 16) & 3];
}

/** What a field of a register shows, as em_names writes it. */
function fieldText(form, number, value) {
  if (form === "size") return String(bufferSize(value));
  if (form === "digits") return hex(number, 4);
  return form === "speed" ? String(SPEEDS[number]) : String(number);
}

/** The group of an offset: its place in the list. */
function groupOf(offset) {
  const within = GROUPS.findIndex(([, , range]) => range && offset >= range[0] && offset < range[1]);
  return within >= 0 ? within : GROUPS.findIndex(([, end]) => offset < end);
}

class Registers {
  constructor(app) {
    this.app = app;
    const { profile } = app.run.settings;
    this.rows = REGISTERS.flatMap(([offset, name], index) => isOfProfile(name, profile) ? [this.row(offset, name, index)] : []);
    this.groups = GROUPS.map(([title], group) => {
      const rows = this.rows.filter((row) => groupOf(row.offset) === group);
      const element = make("div", { class: "group", role: "group", "data-stops": true, "aria-label": title },
        make("h3", {}, title), ...rows.map((row) => row.element));
      return { element, rows };
    });
    byId("registers").replaceChildren(...this.groups.filter(({ rows }) => rows.length).map(({ element }) => element));
    this.zeros = byId("zeros");
    this.zeros.addEventListener("change", () => this.paint());
  }

  /** @private */
  row(offset, name, index) {
    const value = make("span", { class: "value" });
    const old = make("span", { class: "old" });
    const bits = (FIELDS[stemOf(name)] ?? []).map(([bit, high, low, form]) => this.bit(name, bit, high, low, form));
    const button = askButton(`register ${name}`, { class: "name" }, name);
    const element = make("div", { class: "register", "data-register": name, "data-offset": hex(offset, 5) },
      button, make("span", { class: "values" }, value, old),
      make("span", { class: "bits" }, ...bits.map((bit) => bit.element)));
    return { offset, name, index, element, button, value, old, bits, shown: -1, lit: false, hidden: false };
  }

  /** @private */
  bit(name, bit, high, low, form) {
    const mask = maskOf(high, low);
    const element = askButton(`bits ${name} ${mask}`, { class: "bit", "data-bit": bit }, bit);
    return { name: bit, mask, low, form, element };
  }

  paint() {
    const { state, place } = this.app;
    const changes = this.app.changes ? new Map(place.registers.map(([index, before]) => [index, before])) : new Map();
    let zero = 0;
    for (const row of this.rows) {
      const value = state.registers[row.index];
      const before = changes.get(row.index);
      if (value !== row.shown || row.lit || before !== undefined) this.paintRow(row, value, before);
      if (value === 0) zero += 1;
      const hidden = value === 0 && before === undefined && !this.zeros.checked;
      if (hidden !== row.hidden) {
        row.hidden = hidden;
        row.element.hidden = hidden;
      }
    }
    for (const { element, rows } of this.groups) setHidden(element, rows.every((row) => row.hidden));
    setText(byId("zero-count"), `the ${zero} that are zero too`);
  }

  /** @private */
  paintRow(row, value, before) {
    const lit = before !== undefined;
    row.shown = value;
    row.lit = lit;
    setAttribute(row.element, "data-value", hex(value, 8));
    setAttribute(row.element, "data-changed", lit ? "" : null);
    setText(row.value, hex(value, 8));
    setText(row.old, lit ? `was ${hex(before, 8)}` : "");
    setAttribute(row.button, "aria-label",
      `${row.name} ${hex(value, 8)}${lit ? `, changed by this step, was ${hex(before, 8)}` : ""}: `
      + "who changed it last?");
    for (const bit of row.bits) this.paintBit(row, bit, value, before);
  }

  /** @private */
  paintBit(row, bit, value, before) {
    const number = ((value & bit.mask) >>> bit.low) >>> 0;
    const lit = before !== undefined && ((value ^ before) & bit.mask) !== 0;
    const isBit = bit.form === "bit";
    const says = isBit ? bit.name : `${bit.name}=${fieldText(bit.form, number, value)}`;
    setText(bit.element, says);
    setAttribute(bit.element, "data-on", number ? "1" : "0");
    setAttribute(bit.element, "data-changed", lit ? "" : null);
    setAttribute(bit.element, "aria-label", `${row.name} ${says}${isBit ? (number ? " is set" : " is clear") : ""}`
      + `${lit ? ", changed by this step" : ""}: who changed it last?`);
  }
}

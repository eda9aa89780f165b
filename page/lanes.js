// A register's, a field's or some octets' value over time, as a lane below the signals.

/** So many lanes are shown at once. */
const MOST_LANES = 6;
/** Of so many octets a lane is shown. */
const MOST_OF_LANE = 8;
/** Where a value has room for itself in its part of a lane, in points for each letter and beside it. */
const LANE_LETTER = 6.7, LANE_MARGIN = 8;

/** Whether a lane can show what is watched. @param {Watch} watch */
function isOfLane({ kind, count }) {
  return kind === "register" || (kind === "octets" && count <= MOST_OF_LANE);
}

/** A value by steps: the numbers of its texts. */
class Lane {
  /** @param {Run} run @param {string} text of the watch */
  constructor(run, text) {
    this.text = text;
    this.watch = watchOf(text);
    this.texts = new Texts();
    const { steps, places } = run, byPlace = new Uint32Array(places.length);
    byPlace[0] = this.texts.numberOf(this.first(run));
    for (let number = 1; number < places.length; number++) {
      const before = byPlace[places.before.at(number)];
      byPlace[number] = changed(places, number, this.watch)
        ? this.texts.numberOf(this.behind(places, number, before)) : before;
    }
    this.values = new Uint32Array(steps.length);
    for (let step = 0; step < steps.length; step++) this.values[step] = byPlace[steps.places.at(step)];
  }

  /** What it was at the start. @private */
  first({ registers }) {
    const { watch } = this;
    return watch.kind === "register" ? partText(watch, registers[watch.index]) : "0".repeat(2 * watch.count);
  }

  /** What it is behind an event that changed it. @private @param {number} before the number of the text before it */
  behind(places, number, before) {
    const { watch } = this;
    if (watch.kind === "register") {
      return partText(watch, places.at(number).registers.find(([index]) => index === watch.index)[2]);
    }
    const octets = octetsOf(this.texts.list[before]);
    for (const [address, , after] of places.memoryOf(number)) {
      const written = octetsOf(after), from = Math.max(address, watch.address);
      const end = Math.min(address + written.length, watch.address + octets.length);
      for (let at = from; at < end; at++) octets[at - watch.address] = written[at - address];
    }
    return digitsOf(octets);
  }

  at(step) {
    return this.texts.list[this.values[step]];
  }

  /** What it is called beside its lane. */
  get words() {
    return wordsOfWatch(this.watch);
  }
}

class Lanes {
  constructor(app) {
    this.app = app;
    /** @type {Lane[]} */
    this.list = [];
    this.button = byId("lane-add");
    this.button.addEventListener("click", () => this.add(app.asked.text));
    byId("wave-names").addEventListener("click", (event) => {
      const button = event.target.closest("[data-lane]");
      if (button) this.remove(button.dataset.lane);
    });
  }

  add(text) {
    this.list = [...this.list.filter((lane) => lane.text !== text), new Lane(this.app.run, text)].slice(-MOST_LANES);
    this.app.wave.makeNames();
    this.app.paint();
  }

  remove(text) {
    this.list = this.list.filter((lane) => lane.text !== text);
    this.app.wave.makeNames();
    this.app.paint();
  }

  paint() {
    const { asked } = this.app;
    setHidden(this.button, !asked || !isOfLane(asked.watch) || this.list.some(({ text }) => text === asked.text));
    // (a lane goes over the whole run)
    setDisabled(this.button, !this.app.run.isRead);
  }
}

/** Draws a lane step by step: where a value stays it lies between two lines, and 0 is the lower one alone. */
function paintLane(context, lane, view, [top, bottom], end) {
  const first = Math.floor(view.first), count = Math.min(end, Math.ceil(view.first + view.count)) - first;
  const xOf = (step) => (step - view.first) * view.cell;
  context.textAlign = "center";
  context.textBaseline = "middle";
  context.font = "11px ui-monospace, monospace";
  for (const [from, to, value] of runsOf((step) => lane.values[step], first, count)) {
    const text = lane.texts.list[value], [left, right] = [xOf(from), xOf(to)];
    const isZero = /^0*$/.test(text);
    context.fillStyle = palette.shade;
    if (!isZero) context.fillRect(left, top, right - left, bottom - top);
    context.fillStyle = palette.ink;
    if (!isZero) context.fillRect(left, top, right - left, 1);
    context.fillRect(left, bottom, right - left, 1);
    if (from > 0 && lane.values[from - 1] !== value) context.fillRect(left, top, 1, bottom - top + 1);
    const [seen, until] = [Math.max(0, left), Math.min(view.width, right)];
    const room = until - seen - LANE_MARGIN;
    const shown = [text, text.replace(/^0+(?=.)/, "")].find((one) => one.length * LANE_LETTER <= room);
    if (shown !== undefined) context.fillText(shown, (seen + until) / 2, (top + bottom) / 2 + 1);
  }
}

/** Draws a lane of many steps by columns: a line where it changed there, and else where it stays. */
function paintLaneColumns(context, lane, view, [top, bottom], end) {
  const changes = new Uint8Array(Math.ceil(view.width) + 1);
  const [first, last] = view.axis.range(view.first, view.first + view.count);
  for (let step = Math.max(1, first); step < Math.min(end, last); step++) {
    if (lane.values[step] === lane.values[step - 1]) continue;
    changes[Math.max(0, Math.floor(view.x(step)))] = 1;
  }
  context.fillStyle = palette.ink;
  context.fillRect(0, bottom, view.width, 1);
  context.fillStyle = palette.dim;
  for (let column = 0; column < changes.length; column++) {
    if (changes[column]) context.fillRect(column, top, 1, bottom - top);
  }
}

// The interrupt line, its causes, the link and the FIFO over the steps, as a logic analyser shows signals.

/** How tall a signal's row is; on a phone a finger must find it. */
const ROW = 20, PHONE_ROW = 24;

/**
 * Steps next to each other at which a signal is the same: the first step, the one past the last, and the signal.
 * @returns {[number, number, number][]}
 */
function runsOf(at, first, count) {
  const runs = [];
  for (let step = first; step < first + count; step++) {
    const value = at(step);
    const last = runs[runs.length - 1];
    if (last && last[2] === value) last[1] = step + 1;
    else runs.push([step, step + 1, value]);
  }
  return runs;
}

/**
 * Signals by columns, where many steps stand in one: which were ever high there, and which always; the frames in the
 * FIFO.
 * @typedef {Object} SignalColumns
 * @property {Uint32Array} icrAny
 * @property {Uint32Array} icrAll
 * @property {Uint32Array} imsAny
 * @property {Uint8Array} signalsAny
 * @property {Uint8Array} signalsAll
 * @property {Uint32Array} framesMost
 * @property {Uint32Array} framesLeast
 */

/** The signals of a view by columns, one for each point. @param {Steps} steps @returns {SignalColumns} */
function signalColumnsOf(steps, { axis, first, cell, width }) {
  const count = Math.ceil(width), { places, events, icr, ims } = steps;
  const [icrAny, imsAny, framesMost] = Array.from({ length: 3 }, () => new Uint32Array(count));
  const [icrAll, framesLeast] = Array.from({ length: 2 }, () => new Uint32Array(count).fill(0xFFFFFFFF));
  const signalsAny = new Uint8Array(count), signalsAll = new Uint8Array(count).fill(0xFF);
  const [from, end] = axis.range(first, first + count / cell);
  const gather = (step, column) => {
    const number = places.at(step);
    const [signals, frames] = [events.signals.at(number), events.frames.at(number)];
    icrAny[column] |= icr.at(step);
    icrAll[column] &= icr.at(step);
    imsAny[column] |= ims.at(step);
    signalsAny[column] |= signals;
    signalsAll[column] &= signals;
    if (frames > framesMost[column]) framesMost[column] = frames;
    if (frames < framesLeast[column]) framesLeast[column] = frames;
  };
  // between two times all stays as it was
  let column = 0;
  const stay = (step, until) => {
    for (; axis.isTime && step >= 0 && column <= until; column++) gather(step, column);
  };
  for (let step = from; step < end; step++) {
    const at = Math.max(0, Math.min(count - 1, Math.floor((axis.at(step) - first) * cell)));
    stay(step - 1, at);
    gather(step, at);
  }
  stay(end - 1, count - 1);
  return { icrAny, icrAll, imsAny, signalsAny, signalsAll, framesMost, framesLeast };
}

class Wave {
  constructor(app, timeline) {
    this.app = app;
    this.timeline = timeline;
    this.makeRows();
    this.makeNames();
  }

  /** Takes what was read since: another cause, or more frames that wait. */
  grow() {
    const { steps: { seen }, places: { mostFrames } } = this.app.run, isOther = seen !== this.seen;
    if (isOther || mostFrames > this.most) this.makeRows();
    if (isOther) this.makeNames();
    this.pictureKey = "";
  }

  /** @private */
  makeRows() {
    const { steps, places } = this.app.run, { seen } = steps;
    this.seen = seen;
    this.most = Math.max(1, places.mostFrames);
    const is = (signals, bit) => (signals & bit ? 1 : 0);
    const signal = (bit) => ({
      at: (step) => is(places.signals.at(steps.places.at(step)), bit),
      range: ({ signalsAny, signalsAll }, column) => [is(signalsAll[column], bit), is(signalsAny[column], bit)],
    });
    this.rows = [
      { words: "interrupt", watch: "interrupt", ...signal(INTERRUPT) },
      { words: "link", watch: "link", ...signal(LINK) },
      {
        words: "FIFO", watch: "frames", at: (step) => places.frames.at(steps.places.at(step)) / this.most,
        range: ({ framesLeast, framesMost }, column) =>
          [framesLeast[column] / this.most, framesMost[column] / this.most],
      },
      ...FIELDS.ICR.filter(([, high]) => (seen >>> high) & 1).map(([name, bit]) => this.cause(name, bit)),
    ];
  }

  /** @private */
  cause(name, bit) {
    const { steps } = this.app.run;
    return {
      words: name, watch: `bits ICR ${(1 << bit) >>> 0}`, mask: `bits IMS ${(1 << bit) >>> 0}`,
      at: (step) => (steps.icr.at(step) >>> bit) & 1, through: (step) => (steps.ims.at(step) >>> bit) & 1,
      range: ({ icrAll, icrAny }, column) => [(icrAll[column] >>> bit) & 1, (icrAny[column] >>> bit) & 1],
      throughAny: ({ imsAny }, column) => (imsAny[column] >>> bit) & 1,
    };
  }

  /** @private */
  makeNames() {
    const top = make("div", { class: "steps-name quiet" }, "steps");
    top.style.setProperty("height", `${this.timeline.height()}px`);
    const names = this.rows.map((row) => {
      row.button = askButton(row.watch, { class: "name" }, row.words);
      row.shown = make("span", { class: "value" });
      row.maskButton = row.mask ? askButton(row.mask, { class: "mask" }, "mask") : null;
      return make("div", { class: "row" }, row.button, ...(row.maskButton ? [row.maskButton] : []), row.shown);
    });
    byId("wave-names").replaceChildren(top, ...names, ...this.app.lanes.list.map((lane) => this.laneName(lane)));
  }

  /** @private @param {Lane} lane */
  laneName(lane) {
    lane.button = askButton(lane.text, { class: "name" }, lane.words);
    lane.shown = make("span", { class: "value" });
    return make("div", { class: "row lane" }, lane.button, lane.shown, make("button", {
      type: "button", class: "lane-end", tabindex: -1, "data-lane": lane.text,
      "aria-label": `Show ${lane.words} over time no more`,
    }, "×"));
  }

  /** How tall a row is. */
  row() {
    return isNarrow() ? PHONE_ROW : ROW;
  }

  /** How tall all is. @private */
  height() {
    return this.timeline.height() + this.row() * (this.rows.length + this.app.lanes.list.length);
  }

  paint() {
    const height = this.height(), { context, width } = sized(byId("analyser"), height);
    this.paintPresent(context, palette.shade, 0);
    context.drawImage(this.picture(width, height), 0, 0, width, height);
    this.timeline.paintAhead(context);
    this.timeline.paintWays(context);
    this.paintPresent(context, palette.accent, Math.max(0, this.timeline.view.wide - 1.5));
    this.rows.forEach((one) => this.paintName(one));
    for (const lane of this.app.lanes.list) {
      const text = lane.at(this.app.step);
      setText(lane.shown, shortened(text, 2 * MOST_OF_LANE));
      setAttribute(lane.button, "aria-label", `${lane.words} ${text}: who changed it last?`);
    }
  }

  /** The steps, the signals and the lanes. @private */
  paintAll(context, width) {
    const top = this.timeline.height(), row = this.row();
    this.timeline.paintSteps(context);
    this.rows.forEach((one, index) => this.paintRow(context, one, top + row * index, width));
    this.app.lanes.list.forEach((lane, index) =>
      this.paintLane(context, lane, top + row * (this.rows.length + index), width));
  }

  /** All that as a picture, which is drawn once for a view and a search. @private */
  picture(width, height) {
    const { search, lanes } = this.app, shown = lanes.list.map(({ text }) => text).join();
    const key = [this.timeline.view.key(), height, palette.version, window.devicePixelRatio, search.version, shown]
      .join(" ");
    if (key !== this.pictureKey) {
      this.pictureKey = key;
      this.drawn = new OffscreenCanvas(1, 1);
      this.paintAll(sized(this.drawn, height, width).context, width);
    }
    return this.drawn;
  }

  /** @private */
  paintLane(context, lane, y, width) {
    const { view } = this.timeline, end = this.app.run.steps.length, ends = [y + 4, y + this.row() - 4];
    context.fillStyle = palette.line;
    context.fillRect(0, y, width, 1);
    (view.isColumns ? paintLaneColumns : paintLane)(context, lane, view, ends, end);
  }

  /** @private */
  paintName(row) {
    const { step, place } = this.app;
    const value = row.watch === "frames" ? place.frames : row.at(step);
    setText(row.shown, String(value));
    setAttribute(row.button, "aria-label", `${row.words} ${value}: who changed it last?`);
    if (row.maskButton) {
      const through = row.through(step);
      setAttribute(row.maskButton, "aria-label",
        `${row.words} is ${through ? "" : "not "}let through by IMS: who changed that last?`);
      setAttribute(row.maskButton, "data-on", through);
    }
  }

  /** The place where one is, from the steps down over every signal: its ground, or the line behind it. @private */
  paintPresent(context, colour, from) {
    const { view } = this.timeline;
    context.fillStyle = colour;
    context.fillRect(view.x(this.app.step) + from, 0, Math.max(1.5, view.wide - from), this.height());
  }

  /** @private */
  paintRow(context, row, y, width) {
    context.strokeStyle = palette.line;
    context.beginPath();
    context.moveTo(0, y + 0.5);
    context.lineTo(width, y + 0.5);
    context.stroke();
    if (this.timeline.view.isColumns) this.paintColumns(context, row, y);
    else this.paintEach(context, row, y);
  }

  /** A signal step by step. @private */
  paintEach(context, row, y) {
    const { view } = this.timeline, { cell } = view, [low, high] = [y + this.row() - 4, y + 4];
    const first = Math.floor(view.first), shift = (view.first - first) * cell;
    const count = Math.min(this.app.run.steps.length, Math.ceil(view.first + view.count)) - first;
    const xOf = (step) => (step - first) * cell - shift;
    context.fillStyle = palette.touched;
    for (const [from, end, through] of row.through ? runsOf(row.through, first, count) : []) {
      if (through) context.fillRect(xOf(from), low + 1, (end - from) * cell, 2);
    }
    const level = (value) => low - (low - high) * value;
    const runs = runsOf(row.at, first, count);
    context.fillStyle = palette.shade;
    for (const [from, end, value] of runs) {
      if (value) context.fillRect(xOf(from), level(value), (end - from) * cell, low - level(value));
    }
    context.strokeStyle = palette[row.watch === "interrupt" ? "accent" : "ink"];
    context.lineWidth = 1.3;
    context.beginPath();
    context.moveTo(xOf(first), level(row.at(first)));
    for (const [from, end, value] of runs) {
      context.lineTo(xOf(from), level(value));
      context.lineTo(xOf(end), level(value));
    }
    context.stroke();
    context.lineWidth = 1;
  }

  /** A signal of many steps by columns: from where it was least to where it was most. @private */
  paintColumns(context, row, y) {
    const columns = this.columns(), [low, high] = [y + this.row() - 4, y + 4];
    const count = columns.icrAny.length, level = (value) => low - (low - high) * value;
    for (let column = 0; column < count; column++) {
      const [least, most] = row.range(columns, column);
      if (least > most) continue;
      context.fillStyle = palette.shade;
      context.fillRect(column, level(most), 1, low - level(most));
      const ink = row.watch === "interrupt" ? "accent" : "ink";
      context.fillStyle = palette[least === most || ink === "accent" ? ink : "dim"];
      context.fillRect(column, level(most), 1, Math.max(1.3, level(least) - level(most)));
      if (!row.throughAny?.(columns, column)) continue;
      context.fillStyle = palette.touched;
      context.fillRect(column, low + 1, 1, 2);
    }
  }

  /** The signals that are shown by columns, which are gathered once for a view. @private */
  columns() {
    const { view } = this.timeline;
    if (this.columnsKey !== view.key()) {
      this.columnsKey = view.key();
      this.gathered = signalColumnsOf(this.app.run.steps, view);
    }
    return this.gathered;
  }
}

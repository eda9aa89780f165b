// The timeline: each step a tick, the steps that were taken back on a branch of their own.

/** By kind of step: its letter in the timeline, and its words in the legend. */
const KINDS = {
  read: ["r", "read"], write: ["w", "write"], poke: ["m", "write to memory"], arrive: ["a", "frame arrives"],
  rx: ["R", "receive step"], tx: ["T", "transmit step"], link: ["L", "link"], driver: ["d", "call without an event"],
  look: ["·", "look"], back: ["↶", "events taken back"], start: ["|", "start"],
};
const MARKS = { refused: ["×", "refused"], dropped: ["▾", "dropped"], bad: ["!", "bad line"],
  differs: ["≠", "another answer than it expects"], warning: ["⚠\uFE0E", "warning"] };
const LANE = 20;
const MARK_ROOM = 12;
const OVERVIEW_HEIGHT = 30;
const ARC_ROOM = 18;
/** How many reverse steps next to each other have lines of their own. */
const TRACKS = 3;
/** How much of their colour steps keep that lie ahead. */
const AHEAD = 0.45;

/** The colours of the page's style, by name; read again when the scheme changes. */
const palette = {};
const COLOURS = ["ink", "dim", "line", "panel", "accent", "bad", "warn", "back", "shade", "adapter", "driver",
  "touched", "rx",
  "tx", ...Object.keys(KINDS).map((kind) => `kind-${kind}`),
  ...["zero", "filled", "buffer", "ring", "touched"].map((kind) => `map-${kind}`)];

function readPalette() {
  const style = getComputedStyle(document.documentElement);
  palette.version = (palette.version ?? 0) + 1;
  for (const name of COLOURS) palette[name] = style.getPropertyValue(`--${name}`).trim();
}

/** By canvas, how wide it is shown. To ask for it at each step would lay the page out several times. */
const widths = new Map();

/** How wide a canvas is shown, in points. */
function widthOf(canvas) {
  // (in a window without room it has none, and a picture needs some)
  if (!widths.has(canvas)) widths.set(canvas, Math.max(1, canvas.clientWidth));
  return widths.get(canvas);
}

/** Makes a canvas as large as it is shown, and gives its context in points. */
function sized(canvas, height, width = widthOf(canvas)) {
  const ratio = window.devicePixelRatio || 1;
  const [across, down] = [Math.round(width * ratio), Math.round(height * ratio)];
  if (canvas.width !== across || canvas.height !== down) {
    canvas.width = across;
    canvas.height = down;
    if (canvas.style) canvas.style.setProperty("height", `${height}px`);
  }
  const context = canvas.getContext("2d");
  context.setTransform(ratio, 0, 0, ratio, 0, 0);
  context.clearRect(0, 0, width, height);
  return { context, width };
}

/** Draws each step of a run. The marks come last, so that none is hidden where steps stand close together. */
function paintTicks(context, steps, apart) {
  const wide = Math.max(1, apart - (apart > 3 ? 1 : 0));
  for (let index = 0; index < steps.length; index++) {
    context.fillStyle = palette[`kind-${steps.kind(index)}`];
    context.fillRect(index * apart, steps.isOnBranch(index) ? 17 : 7, wide, 9);
  }
  for (const shown of [...MARK_ORDER].reverse()) {
    context.fillStyle = markColour(shown);
    for (let index = 0; index < steps.length; index++) {
      if (steps.mark(index) === shown) context.fillRect(index * apart, 1, Math.max(2, wide), 5);
    }
  }
}

/** Whether a column has a value. @param {Numbers} column */
function has({ values, length }, value) {
  const at = values.indexOf(value);
  return at >= 0 && at < length;
}

/** How often a value stands in an array. */
function countOf(values, wanted) {
  let count = 0;
  for (let at = 0; at < values.length; at++) if (values[at] === wanted) count += 1;
  return count;
}

class Timeline {
  constructor(app) {
    this.app = app;
    this.axes = new Axes(app.run);
    this.view = new View(app.run.steps, this.axes.steps);
    this.overview = byId("overview");
    this.analyser = byId("analyser");
    this.slider = byId("slider");
    this.slider.addEventListener("input", () => app.goTo(Number(this.slider.value)));
    for (const [id, go] of Object.entries({
      "to-start": () => app.jump(0), "one-back": () => app.goTo(app.step - 1), "one-on": () => app.goTo(app.step + 1),
      "to-end": () => app.toEnd(), play: () => this.play(!this.timer),
      narrower: () => this.zoom(1 / ZOOM_FACTOR), wider: () => this.zoom(ZOOM_FACTOR), whole: () => this.zoom(0),
    })) byId(id).addEventListener("click", go);
    byId("by-time").addEventListener("click", () => this.turn());
    this.pointer = new Pointer(this);
    this.measure();
  }

  /** Takes what was read since. */
  grow() {
    this.axes = new Axes(this.app.run);
    this.view.grow(this.axes.steps);
    this.measure();
  }

  /** All that goes by how long the run is. @private */
  measure() {
    const { run, run: { steps } } = this.app;
    this.whole = new WholeRun(run);
    /** the reverse steps that took something back, and the steps behind which they led */
    this.backs = Uint32Array.from(steps.backs.keys()).filter((index) => index < steps.length);
    this.targets = this.backs.map((index) => steps.events.step.at(steps.places.at(index)));
    this.hasBranches = has(steps.kinds, KIND_NUMBER.get("back"));
    this.slider.max = String(steps.length - 1);
    setHidden(byId("by-time"), !this.axes.byTime);
    this.legend();
  }

  /** @private */
  legend() {
    const { run, two, run: { steps, steps: { kinds } } } = this.app;
    become(byId("kinds"), [
      ...Object.entries(KINDS).filter(([kind]) => has(kinds, KIND_NUMBER.get(kind)) && kind !== "start")
        .map(([kind, [letter, words]]) => make("li", {}, make("span", { class: `tick kind-${kind}` }, letter), words)),
      ...Object.entries(MARKS).filter(([mark]) => steps.marked(mark) > 0).map(([mark, [sign, words]]) =>
        make("li", {}, make("span", { class: `tick mark-${mark}` }, sign), this.markButton(mark, words))),
      ...(two ? [make("li", {}, this.countButton(UNLIKE, `not as in ${two.other(this.app.side)}`,
        countOf(run.unlike, 1)))] : []),
      make("li", {}, make("span", { class: "masked", "aria-hidden": "true" }), "under a cause: IMS lets it through")]);
  }

  /** How many steps came out so; they are sought by it. @private */
  markButton(mark, words) {
    return this.countButton(mark, words, this.app.run.steps.marked(mark));
  }

  /** @private */
  countButton(word, words, count) {
    return make("button", { type: "button", "data-find": `is:${word}`, tabindex: -1, title: "Go to the next one" },
      `${words} (${grouped(count)})`);
  }

  /** Zooms by a factor about the present step, or to the whole run for 0. */
  zoom(factor) {
    this.view.zoom(factor, this.view.middle());
    this.changed();
  }

  /** Lies along times in the place of steps, or along steps again. */
  turn() {
    const { byTime, steps } = this.axes;
    if (!byTime) return;
    this.view.turn(this.view.axis.isTime ? steps : byTime);
    setAttribute(byId("by-time"), "aria-pressed", this.view.axis.isTime);
    this.app.wave.makeNames();
    this.app.paint();
  }

  /** Moves the view by a part of its width. */
  move(part) {
    this.view.move(part * this.view.width);
    this.changed();
  }

  /** Draws the view anew, once a frame. */
  changed() {
    this.frame ??= requestAnimationFrame(() => {
      this.frame = undefined;
      if (this.app.isClosed) return;
      this.paint();
      this.app.wave.paint();
    });
  }

  play(on) {
    clearTimeout(this.timer);
    this.timer = on ? setTimeout(() => this.playOn(), 0) : null;
    const button = byId("play");
    setAttribute(button, "aria-pressed", on);
    setText(button, on ? "⏸\uFE0E pause" : "▶\uFE0E play");
    setAttribute(button, "aria-label", on ? "Pause" : "Play");
  }

  /** @private */
  playOn() {
    const { step, run } = this.app, isLast = step >= run.steps.length - 1;
    if (isLast && run.isRead) {
      this.play(false);
      return;
    }
    // (at the end of what was read so far it waits for more)
    if (!isLast) this.app.goTo(step + 1, true);
    this.timer = setTimeout(() => this.playOn(), 1000 / Number(byId("speed").value));
  }

  paint() {
    const { app } = this;
    this.view.look(widthOf(this.analyser), app.step);
    this.slider.value = String(app.step);
    setAttribute(this.slider, "aria-valuetext", app.stepText());
    setText(byId("where"), `event ${app.place.number} · step ${app.step} of ${app.run.steps.length - 1}`);
    if (this.axes.times) setAttribute(byId("run"), "data-time", this.axes.text(app.step));
    const { first, count } = this.view;
    setAttribute(this.analyser, "data-axis", this.view.axis.isTime ? "times" : "steps");
    setAttribute(this.analyser, "data-first", first.toFixed(3));
    setAttribute(this.analyser, "data-count", count.toFixed(3));
    this.paintOverview();
  }

  /** How tall the steps are above the signals. */
  height() {
    return MARK_ROOM + LANE + (this.hasBranches ? LANE + ARC_ROOM : 4) + (this.view.axis.isTime ? RULER : 0);
  }

  /** @private */
  paintOverview() {
    const { run, step } = this.app, { axis } = this.view, isLong = this.whole.isLong(widthOf(this.overview), axis);
    const height = isLong ? this.whole.height() : OVERVIEW_HEIGHT;
    const { context, width } = sized(this.overview, height);
    const apart = width / run.steps.length;
    context.drawImage(this.wholeRun(width, height), 0, 0, width, height);
    const { first, count } = this.view;
    context.strokeStyle = palette.dim;
    context.strokeRect(first * apart + 0.5, 0.5, Math.max(2, Math.min(width, count * apart) - 1), height - 1);
    context.fillStyle = palette.accent;
    context.fillRect(Math.min(width - 2, Math.max(0, (axis.at(step) + axis.wide / 2) * apart - 1)), 0, 2, height);
  }

  /** The whole run as a picture, which is drawn once for each width, scheme and search. @private */
  wholeRun(width, height) {
    const { run, search } = this.app, { axis } = this.view;
    const key = [axis.isTime, run.steps.length, width, height, palette.version, window.devicePixelRatio,
      search.version].join();
    if (this.pictureKey === key) return this.picture;
    this.pictureKey = key;
    this.picture = new OffscreenCanvas(1, 1);
    const { context } = sized(this.picture, height, width);
    if (this.whole.isLong(width, axis)) this.whole.paint(context, width, axis);
    else paintTicks(context, run.steps, width / run.steps.length);
    context.fillStyle = palette.accent;
    const apart = width / run.steps.length;
    for (const x of foundColumns(search.hits.steps, apart, axis)) {
      context.fillRect(Math.min(x, width - 2), height - FOUND_ROW, Math.max(2, apart - 1), FOUND_ROW);
    }
    return this.picture;
  }

  /** Draws the steps at the top of the analyser. */
  paintSteps(context) {
    const { view } = this;
    if (view.axis.isTime) paintRuler(context, view, this.height() - RULER);
    if (view.isColumns) {
      this.paintColumns(context);
    } else {
      this.paintEach(context);
      this.paintFound(context);
    }
  }

  /** Draws how reverse steps lead back; what lies ahead is fainter. */
  paintWays(context) {
    const { view } = this;
    this.backs.forEach((index, order) => {
      const to = this.targets[order];
      const [start, end] = [view.x(to), view.x(index)];
      const isSeen = end - start >= LEAST_CELL && start < view.width && end + view.wide > 0;
      if (isSeen) this.paintWay(context, index, to, order % TRACKS);
    });
  }

  /** Draws many steps by columns: each kind by its share, those that were taken back below. @private */
  paintColumns(context) {
    const columns = this.columns(), wide = this.view.axis.isTime ? 2 : 1;
    for (let column = 0; column < columns.count; column++) {
      paintShares(context, columns.kinds, column, MARK_ROOM + 1, LANE - 2, wide);
      if (this.hasBranches) paintShares(context, columns.gone, column, MARK_ROOM + LANE + 1, LANE - 2, wide);
    }
    paintMarks(context, columns, this.whole.marks, 0, MARK_ROOM / Math.max(3, this.whole.marks.length));
  }

  /** What lies ahead is fainter. */
  paintAhead(context) {
    const { view, app: { step } } = this, from = Math.max(0, view.x(step) + Math.max(2, view.wide));
    context.globalAlpha = 1 - AHEAD;
    context.fillStyle = palette.panel;
    context.fillRect(from, MARK_ROOM + 1, Math.max(0, view.width - from), LANE * (this.hasBranches ? 2 : 1) - 1);
    context.globalAlpha = 1;
  }

  /** The steps that are shown by columns, which are counted once for a view. @private */
  columns() {
    if (this.columnsKey !== this.view.key()) {
      this.columnsKey = this.view.key();
      this.counted = columnsOf(this.app.run.steps, this.view, this.view.width);
    }
    return this.counted;
  }

  /** @private */
  paintEach(context) {
    const { first, count, cell } = this.view, { steps } = this.app.run;
    const from = Math.floor(first), end = Math.min(steps.length, Math.ceil(first + count));
    context.textAlign = "center";
    context.textBaseline = "middle";
    context.font = "bold 11px ui-monospace, monospace";
    for (let index = from; index < end; index++) this.paintStep(context, index, (index - first) * cell);
    context.font = "bold 13px ui-monospace, monospace";
    for (let index = from; index < end; index++) {
      const mark = steps.mark(index);
      if (!mark) continue;
      context.fillStyle = markColour(mark);
      const x = (index - first) * cell;
      if (cell >= 8) context.fillText(MARKS[mark][0], x + cell / 2, MARK_ROOM / 2 + 1);
      else context.fillRect(x, 2, Math.max(2, cell - 1), MARK_ROOM - 4);
    }
  }

  /** Steps that were found have a line above them. @private */
  paintFound(context) {
    const { first, count, cell } = this.view, { steps } = this.app.search.hits;
    context.fillStyle = palette.accent;
    for (let at = firstFrom(steps, first - 1); at < steps.length && steps[at] < first + count; at++) {
      context.fillRect((steps[at] - first) * cell, MARK_ROOM - 1, Math.max(1, cell - 1), 2);
    }
  }

  /** @private */
  paintStep(context, index, x) {
    const { steps } = this.app.run, { cell } = this.view;
    const kind = steps.kind(index);
    const y = MARK_ROOM + (steps.isOnBranch(index) ? LANE : 0);
    const gap = cell >= 8 ? 1 : 0.5;
    context.fillStyle = palette[`kind-${kind}`];
    if (kind === "look" || kind === "start") context.fillRect(x + cell / 2 - 1, y + 5, 2, LANE - 10);
    else context.fillRect(x + gap, y + 1, cell - 2 * gap, LANE - 2);
    if (cell >= 11 && kind !== "look" && kind !== "start") {
      context.fillStyle = palette.panel;
      context.fillText(KINDS[kind][0], x + cell / 2, y + LANE / 2 + 0.5);
    }
  }

  /** The way from a reverse step to the event behind which it led. @private */
  paintWay(context, from, to, track) {
    const { view } = this, { steps } = this.app.run;
    const isBranch = steps.performs.at(to) === 1 && steps.isOnBranch(to);
    const [start, end] = [from, to].map((index) => view.x(index) + view.wide / 2);
    const tip = MARK_ROOM + LANE * (isBranch ? 2 : 1);
    const low = MARK_ROOM + 2 * LANE + 5 + (track * (ARC_ROOM - 8)) / (TRACKS - 1);
    const turn = Math.min(4, Math.abs(start - end) / 2);
    context.globalAlpha = from <= this.app.step ? 1 : AHEAD;
    context.strokeStyle = palette.back;
    context.fillStyle = palette.back;
    context.lineWidth = 1.4;
    context.beginPath();
    context.moveTo(start, MARK_ROOM + 2 * LANE);
    context.arcTo(start, low, end, low, turn);
    context.arcTo(end, low, end, tip, turn);
    context.lineTo(end, tip + 5);
    context.stroke();
    context.beginPath();
    context.moveTo(end, tip);
    context.lineTo(end - 4, tip + 6);
    context.lineTo(end + 4, tip + 6);
    context.fill();
    context.lineWidth = 1;
    context.globalAlpha = 1;
  }
}

/**
 * The place of the first number that is not below another one, among numbers in their order.
 * @param {Uint32Array} numbers
 */
function firstFrom(numbers, least) {
  let [low, high] = [0, numbers.length];
  while (low < high) {
    const middle = (low + high) >> 1;
    if (numbers[middle] < least) low = middle + 1;
    else high = middle;
  }
  return low;
}

/**
 * Where something was found, in points, each once.
 * @param {Uint32Array} steps
 * @param {number} apart points of a place along the axis
 * @param {StepAxis|TimeAxis} axis
 */
function foundColumns(steps, apart, axis) {
  const columns = [];
  for (const step of steps) {
    const column = apart < 1 ? Math.floor(axis.at(step) * apart) : axis.at(step) * apart;
    if (columns[columns.length - 1] !== column) columns.push(column);
  }
  return columns;
}

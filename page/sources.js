// Where lines come from: each source with its events, to go from one to the next. Only the rows that can be seen are in
// the page.

const SOURCE_HEIGHT = 24;
/** So many rows are seen at once. */
const MOST_SOURCES = 10;
/** How wide a letter is, in points, and how many letters the numbers beside a source take. */
const SOURCE_LETTER = 7.3;
const NUMBER_LETTERS = 20;
const LEAST_LETTERS = 12;

/**
 * A place that lines come from.
 * @typedef {Object} Source
 * @property {string} text
 * @property {string} file what stands before the number of its line
 * @property {number} line 0 where none can be read
 * @property {number} events how many events its lines performed
 * @property {Uint32Array} steps of these events; where there are none, of its lines
 */

/** The sources of a run, by file and line. @param {Run} run @returns {Source[]} */
function sourcesOf({ lines }) {
  return lines.texts.list.map((text, number) => ({ text, ...lines.ofSources[number] })).slice(1)
    .map(({ text, events, others }) => {
      const { values, length } = events.length ? events : others;
      return { text, ...placeOf(text), events: events.length, steps: values.subarray(0, length) };
    }).sort(inOrder);
}

/**
 * The file and the line that a source names, behind a function where there is one: `driver.c:57`, `give(),
 * driver.c:57`.
 */
function placeOf(text) {
  const [, file, line] = /^(?:before )?(?:.*\), )?(.*):(\d+)(?: .*)?$/su.exec(text) ?? ["", text, "0"];
  return { file, line: Number(line) };
}

/** @param {Source} one @param {Source} other */
function inOrder(one, other) {
  for (const field of ["file", "line", "text"]) {
    if (one[field] !== other[field]) return one[field] < other[field] ? -1 : 1;
  }
  return 0;
}

class Sources {
  constructor(app) {
    this.app = app;
    this.element = byId("sources");
    this.made = new Map();
    /** the row that Enter chooses, and that of the present step's line: -1 where it has no source */
    this.active = 0;
    this.present = -1;
    this.top = 0;
    this.letters = LEAST_LETTERS;
    /** @type {Source[]} */
    this.list = [];
    this.grow();
  }

  /** Lists the sources, where all of the run was read. */
  grow() {
    const { run } = this.app;
    if (run.isRead) this.list = sourcesOf(run);
    this.indexes = new Map(this.list.map(({ text }, index) => [text, index]));
    byId("sources-panel").hidden = !this.list.length;
    if (this.list.length) this.begin();
  }

  /** @private */
  begin() {
    const { element, list } = this;
    this.height = SOURCE_HEIGHT * Math.min(MOST_SOURCES, list.length);
    element.style.setProperty("height", `${this.height + 2}px`);
    byId("sources-room").style.setProperty("height", `${SOURCE_HEIGHT * list.length}px`);
    setText(byId("sources-head"), counted(list.length, "source"));
    element.addEventListener("scroll", () => {
      this.top = element.scrollTop;
      this.fill();
    });
    element.addEventListener("click", (event) => {
      const row = event.target.closest("[data-source]");
      if (row) this.choose(Number(row.dataset.source));
    });
    element.addEventListener("keydown", (event) => this.keyed(event));
    new ResizeObserver(() => !this.app.isClosed && this.measure()).observe(element);
  }

  /** How many letters of a source have room. @private */
  measure() {
    const letters = Math.max(LEAST_LETTERS, Math.floor(this.element.clientWidth / SOURCE_LETTER) - NUMBER_LETTERS);
    if (letters === this.letters) return;
    this.letters = letters;
    for (const { row } of this.made.values()) row.remove();
    this.made.clear();
    this.fill();
  }

  /** Goes to the first event of a source; from one of its events to the next. */
  choose(index) {
    const { text, steps } = this.list[index];
    const at = (steps.indexOf(this.app.step) + 1) % steps.length;
    this.app.jump(steps[at]);
    this.activate(index);
    const [name, step] = [endOf(text, MOST_LETTERS), shortened(this.app.stepText(), MOST_LETTERS)];
    setText(byId("source-said"), visible(`${name}: ${at + 1} of ${steps.length}, ${step}`));
  }

  /** @private */
  keyed(event) {
    if (event.ctrlKey || event.altKey || event.metaKey) return;
    const by = { ArrowUp: -1, ArrowDown: 1, Enter: 0 }[event.key];
    if (by === undefined) return;
    event.preventDefault();
    event.stopPropagation();
    if (by === 0) this.choose(this.active);
    else this.activate(Math.max(0, Math.min(this.list.length - 1, this.active + by)));
  }

  /** Makes a row the one that Enter chooses, and brings it in sight. @private */
  activate(index) {
    this.active = index;
    const top = index * SOURCE_HEIGHT;
    if (top < this.top || top > this.top + this.height - SOURCE_HEIGHT) {
      this.top = Math.max(0, Math.min(SOURCE_HEIGHT * this.list.length, top + SOURCE_HEIGHT) - this.height / 2);
      this.element.scrollTop = this.top;
      this.top = this.element.scrollTop;
    }
    this.fill();
  }

  paint() {
    if (!this.list.length) return;
    const { run, step } = this.app;
    const present = this.indexes.get(run.lines.at(run.steps.lines.at(step))?.source) ?? -1;
    const isOther = present !== this.present;
    this.present = present;
    if (isOther && present >= 0) this.activate(present);
    else this.fill();
  }

  /** Makes the rows that can be seen, and drops the others. @private */
  fill() {
    const first = Math.max(0, Math.floor(this.top / SOURCE_HEIGHT) - SPARE_LINES);
    const last = Math.min(this.list.length - 1, Math.ceil((this.top + this.height) / SOURCE_HEIGHT) + SPARE_LINES);
    for (const [index, { row }] of this.made) {
      if (index >= first && index <= last) continue;
      row.remove();
      this.made.delete(index);
    }
    for (let index = first; index <= last; index++) {
      if (!this.made.has(index)) this.made.set(index, this.row(index));
      this.paintRow(index, this.made.get(index));
    }
    setAttribute(this.element, "aria-activedescendant", `source-${this.active}`);
  }

  /** @private */
  row(index) {
    const { text, events } = this.list[index];
    const at = make("b", {});
    const words = events ? counted(events, "event") : "no event";
    const name = visible(shortPlace(text, this.letters));
    const row = make("div", {
      role: "option", id: `source-${index}`, class: "source-line", "data-source": index,
      title: visible(endOf(text, 400)), "aria-setsize": this.list.length,
      "aria-posinset": index + 1,
    }, make("span", { class: "text" }, name), at, make("span", { class: "count" }, words));
    row.style.setProperty("top", `${index * SOURCE_HEIGHT}px`);
    row.style.setProperty("order", String(index));
    byId("sources-room").append(row);
    return { row, at };
  }

  /** @private */
  paintRow(index, { row, at }) {
    const { steps } = this.list[index];
    const order = index === this.present ? steps.indexOf(this.app.step) + 1 : 0;
    setText(at, order ? `${order} of ${steps.length}` : "");
    setAttribute(row, "aria-selected", index === this.active);
    setAttribute(row, "aria-current", index === this.present ? "true" : null);
  }
}

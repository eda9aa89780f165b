// The script beside its answers, with the present line lit. Only the lines that can be seen are in the page.

const LINE_HEIGHT = 24;
/** How tall the room of all lines is at most, in points: browsers lay out no more than some 17 or 33 million. */
const MOST_ROOM = 16_000_000;
const SPARE_LINES = 10;
const LEAST_DIGITS = 4;
const MOST_LETTERS = 300;
/** So many letters of a source stand in its column. */
const COLUMN_LETTERS = 14;

class ScriptPanel {
  constructor(app) {
    this.app = app;
    this.element = byId("script");
    this.room = byId("script-room");
    this.made = new Map();
    // where it is scrolled to, among all lines, and how tall it is: to ask at each step would lay the page out again
    this.top = 0;
    this.measure();
    this.height = this.element.clientHeight;
    this.element.addEventListener("scroll", () => {
      this.top = this.element.scrollTop / this.share();
      this.fill();
    });
    this.element.addEventListener("click", (event) => {
      const line = event.target.closest("[data-line]");
      if (!line) return;
      this.app.address.leave();
      this.choose(Number(line.dataset.line));
    });
    this.element.addEventListener("keydown", (event) => this.keyed(event));
    new ResizeObserver(() => {
      if (app.isClosed) return;
      this.height = this.element.clientHeight;
      this.fill();
    }).observe(this.element);
  }

  /** All that goes by how many lines there are. @private */
  measure() {
    const { lines } = this.app.run, sources = lines.texts.list;
    this.count = lines.length;
    this.total = LINE_HEIGHT * this.count;
    this.tall = Math.min(this.total, MOST_ROOM);
    this.room.style.setProperty("height", `${this.tall}px`);
    this.room.style.setProperty("--digits", String(Math.max(LEAST_DIGITS, String(this.count).length)));
    // a column of sources, where any line has one
    this.columns = sources.length > 1;
    const longest = sources.reduce((most, { length }) => Math.max(most, length), 0);
    this.room.style.setProperty("--letters", String(Math.min(COLUMN_LETTERS, longest)));
  }

  /** Takes the lines that were read since. What is scrolled to stays. */
  grow() {
    const { columns } = this;
    this.measure();
    if (columns !== this.columns) this.drop();
    for (const { option } of this.made.values()) setAttribute(option, "aria-setsize", this.count);
    if (this.tall < this.total) this.element.scrollTop = this.top * this.share();
  }

  /** @private */
  drop() {
    for (const { option } of this.made.values()) option.remove();
    this.made.clear();
  }

  /** What a point of all lines is in the room, where these are taller. @private */
  share() {
    return this.tall < this.total ? (this.tall - this.height) / (this.total - this.height) : 1;
  }

  /** Goes to the state behind a line. A comment's is that of the line before it. */
  choose(number) {
    const line = this.app.run.lines.at(number);
    this.app.goTo(line ? line.last : Infinity, false, number);
  }

  /** @private */
  keyed(event) {
    const by = { ArrowUp: -1, ArrowDown: 1 }[event.key];
    if (by === undefined || event.ctrlKey || event.altKey || event.metaKey) return;
    event.preventDefault();
    event.stopPropagation();
    const number = Math.max(1, Math.min(this.count, this.app.line + by));
    this.choose(number);
  }

  paint() {
    const { line } = this.app;
    const top = (line - 1) * LINE_HEIGHT;
    if (line > 0 && (top < this.top + LINE_HEIGHT || top > this.top + this.height - 3 * LINE_HEIGHT)) {
      const wanted = Math.round(Math.max(0, Math.min(this.total - this.height, top - this.height / 2)));
      if (wanted !== this.top) {
        this.top = wanted;
        this.element.scrollTop = wanted * this.share();
      }
    }
    this.fill();
    for (const [number, made] of this.made) this.paintLine(number, made);
    setAttribute(this.element, "aria-activedescendant", line > 0 ? `line-${line}` : null);
  }

  /** Makes the lines that can be seen, and drops the others. @private */
  fill() {
    const first = Math.max(1, Math.floor(this.top / LINE_HEIGHT) + 1 - SPARE_LINES);
    const last = Math.min(this.count, Math.ceil((this.top + this.height) / LINE_HEIGHT) + SPARE_LINES);
    for (const [number, { option }] of this.made) {
      if (number < first || number > last) {
        option.remove();
        this.made.delete(number);
      }
    }
    const shift = Math.round(this.top * (this.share() - 1));
    for (let number = first; number <= last; number++) {
      if (this.made.get(number)?.shift === shift) continue;
      this.made.get(number)?.option.remove();
      const made = { option: this.option(number, shift), key: "", shift };
      this.made.set(number, made);
      this.room.append(made.option);
      this.paintLine(number, made);
    }
  }

  /** @private @param {number} shift how much higher a line stands in the room than among all lines */
  option(number, shift) {
    const text = visible(shortened(this.app.run.script[number - 1], MOST_LETTERS));
    const line = this.app.run.lines.at(number);
    const answer = line && line.answer.length
      ? visible(shortened(line.answer[0], 60)) + (line.answer.length > 1 ? ` … ${line.answer.length} lines` : "") : "";
    const mark = line ? line.mark : "";
    const sign = mark && line.answer.length ? `${MARKS[mark][0]} ` : "";
    const source = line ? visible(shortPlace(line.source, COLUMN_LETTERS)) : "";
    const option = make("div", {
      role: "option", id: `line-${number}`, "data-line": number, "aria-setsize": this.count,
      "aria-posinset": number, class: text.trimStart().startsWith("#") ? "script-line comment" : "script-line",
      title: text,
    }, make("span", { class: "number" }, String(number)),
    ...(this.columns ? [make("span", { class: "source" }, source)] : []), make("span", { class: "text" }, text),
    make("span", { class: `answer${sign ? ` mark-${mark}` : ""}` }, sign + answer));
    option.style.setProperty("top", `${(number - 1) * LINE_HEIGHT + shift}px`);
    // (on paper they lie one below the other, in this order)
    option.style.setProperty("order", String(number));
    return option;
  }

  /** @private */
  paintLine(number, made) {
    const { run, step, line: present } = this.app;
    const line = run.lines.at(number);
    const ahead = line ? line.first > step : number > present;
    const last = line && run.steps.at(line.last);
    const isGone = last && last.performs && last.line === number && last.place.takenBack <= step;
    const { option } = made;
    const key = `${number === present} ${ahead} ${isGone}`;
    if (key === made.key) return;
    made.key = key;
    setAttribute(option, "aria-selected", number === present);
    setAttribute(option, "data-ahead", ahead ? "" : null);
    setAttribute(option, "data-gone", isGone ? "" : null);
    setAttribute(option, "aria-label", isGone ? `${option.textContent} (taken back)` : null);
  }
}

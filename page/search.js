// Search: what is sought in the run, how much was found, and which of it is shown.

/** So many milliseconds behind the last letter it is sought. */
const FIND_RESTS = 150;

class Search {
  constructor(app) {
    this.app = app;
    this.finder = new Finder(app.run);
    this.box = byId("find");
    /** What was sought last, and what was found. @type {string} */
    this.text = "";
    /** @type {Hits} */
    this.hits = { steps: new Uint32Array(0), lines: new Uint32Array(0) };
    this.fault = "";
    /** How often something else was found: pictures of it are drawn anew. */
    this.version = 0;
    /** Where to go when all of the run was read: to the next place, the one before, or nowhere. @type {1|-1|0} */
    this.wanted = 0;
    this.listen();
  }

  /** @private */
  listen() {
    this.box.addEventListener("input", () => {
      clearTimeout(this.timer);
      this.timer = setTimeout(() => this.seek(this.box.value), FIND_RESTS);
    });
    this.box.addEventListener("keydown", (event) => {
      if (event.key === "Escape") this.box.blur();
      if (event.key !== "Enter") return;
      event.preventDefault();
      this.go(event.shiftKey ? -1 : 1);
    });
    byId("find-form").addEventListener("submit", (event) => event.preventDefault());
    byId("find-back").addEventListener("click", () => this.go(-1));
    byId("find-on").addEventListener("click", () => this.go(1));
    document.addEventListener("click", (event) => {
      const button = event.target.closest("[data-find]");
      if (!button) return;
      this.set(button.dataset.find);
      this.go(1);
    }, { signal: this.app.ending.signal });
  }

  /** Seeks what stands in a link or on a button. */
  set(text) {
    this.box.value = text;
    this.seek(text);
  }

  /** Seeks, where it is something else than before. @param {string} text */
  seek(text) {
    clearTimeout(this.timer);
    if (text === this.text || this.app.isClosed) return;
    this.find(text);
    this.app.paint();
  }

  /** @private */
  find(text) {
    this.text = text;
    const { hits, fault } = this.finder.find(text);
    Object.assign(this, { hits, fault, version: this.version + 1 });
    setAttribute(this.box, "aria-invalid", fault ? "true" : null);
  }

  /** Seeks what was to be sought, once all of the run was read. */
  grow() {
    if (this.app.run.isRead && this.text) this.find(this.text);
  }

  /** Goes where it was to go then. @returns {boolean} whether it does */
  follows() {
    const { wanted } = this, { length } = this.hits.steps;
    if (!this.app.run.isRead || !wanted) return false;
    this.wanted = 0;
    this.go(wanted);
    return length > 0;
  }

  focus() {
    this.box.focus();
    this.box.select();
  }

  /** Goes to the next place that was found, or to the one before; behind the last is the first. @param {1|-1} by */
  go(by) {
    this.seek(this.box.value);
    if (!this.app.run.isRead) this.waitToGo(by);
    const { length } = this.hits.steps;
    if (!length) return;
    const [behind, at] = this.rank();
    const index = by > 0 ? (behind + (at ? 1 : 0)) % length : (behind - 1 + length) % length;
    this.app.jump(this.hits.steps[index], this.hits.lines[index]);
  }

  /** Goes there when all was read, and not where the link leads. @private */
  waitToGo(by) {
    this.wanted = this.text.trim() && !this.fault ? by : 0;
    if (this.wanted) this.app.address.stop();
  }

  /** How many lie before the present place, and whether one lies there. @private @returns {[number, boolean]} */
  rank() {
    const { steps, lines } = this.hits, { step, run } = this.app;
    const line = this.app.line === run.steps.lines.at(step) ? 0 : this.app.line;
    const order = (index) => steps[index] - step || lines[index] - line;
    let [low, high] = [0, steps.length];
    while (low < high) {
      const middle = (low + high) >> 1;
      if (order(middle) < 0) low = middle + 1;
      else high = middle;
    }
    return [low, low < steps.length && order(low) === 0];
  }

  paint() {
    const [before, at] = this.rank(), { length } = this.hits.steps;
    const count = grouped(length);
    const none = this.app.run.isRead ? "nothing found" : "sought when all is read";
    const found = !this.text.trim() ? "" : this.fault || (length === 0 ? none : at
      ? `${grouped(before + 1)} of ${count}` : `${count} found`);
    setText(byId("found"), found);
    for (const id of ["find-back", "find-on"]) setDisabled(byId(id), length === 0);
  }
}

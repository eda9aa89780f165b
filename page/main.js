// Puts the page together: where one is in the run, what was asked, and which keys do what.

const PAGE_STEPS = 10;
const MOST_TRAIL = 6;

class App {
  /** @param {Run} run @param {Shown} shown @param {number} side which of two runs it is */
  constructor(run, shown, side) {
    Object.assign(this, { run, shown, side, state: run.state, two: shown.two });
    /** Ends what listens to more than the page's main element. */
    this.ending = new AbortController();
    /** @type {number} the place in the run: a step */
    this.step = run.isRead ? run.steps.length - 1 : 0;
    this.state.goTo(this.number);
    this.line = run.steps.lines.at(this.step);
    /**
     * What was asked last, the event that was told, and the step at which it was.
     * @type {{text: string, watch: Watch, number: number|null, step: number}|null}
     */
    this.asked = null;
    this.origin = 0;
    this.trail = [];
    /** Whether the end was chosen, while there is more to be read. */
    this.endWaits = false;
    this.address = new Address(this);
    this.search = new Search(this);
    this.rings = [new RingPanel(this, "rx"), new RingPanel(this, "tx")];
    this.timeline = new Timeline(this);
    this.memory = new MemoryPanel(this);
    this.sources = new Sources(this);
    this.lanes = new Lanes(this);
    this.wave = new Wave(this, this.timeline);
    this.panels = [new ScriptPanel(this), this.timeline, this.wave, ...this.rings,
      new Present(this), this.sources,
      new Registers(this), this.memory, new Frames(this), this.search, new Saved(this), this.lanes, new Stops(this)];
    this.steady = new Steady(this);
    this.beside = new TwoPanel(this);
    this.panels.push(this.beside);
    this.signals();
    this.listen();
  }

  /** Lets go of the page, where another run is to be shown. */
  close() {
    this.timeline.play(false);
    this.address.close();
    this.ending.abort();
  }

  /** Whether it is shown no more. */
  get isClosed() {
    return this.ending.signal.aborted;
  }

  /** The number of the newest event that stands here. */
  get number() {
    return this.run.steps.places.at(this.step);
  }

  get place() {
    return this.run.places.at(this.number);
  }

  /** Whether the present step performed the event of its place, so that what it changed is lit. */
  get changes() {
    return this.run.steps.performs.at(this.step) === 1;
  }

  /** Goes to a step, which is brought within the run. @param {number} line the line to light, if not the step's own */
  goTo(step, playing = false, line = 0) {
    if (!playing) this.timeline.play(false);
    this.address.stop();
    this.endWaits = false;
    this.step = Math.max(0, Math.min(this.run.steps.length - 1, step));
    this.line = line || this.run.steps.lines.at(this.step);
    this.state.goTo(this.number);
    this.memory.follow();
    this.paint();
  }

  /** Goes to a place that is not the next one: the browser's back leads to the one that is left. */
  jump(step, line = 0) {
    this.address.leave();
    this.steady.free();
    this.goTo(step, false, line);
  }

  /** Goes to the end; where more is read yet, on with it. */
  toEnd() {
    this.jump(Infinity);
    this.endWaits = !this.run.isRead;
  }

  /** Shows what was read since. */
  grow() {
    const { endWaits } = this;
    for (const panel of this.panels) panel.grow?.();
    if (endWaits) this.goTo(Infinity);
    this.endWaits = endWaits && !this.run.isRead;
    const isThere = this.address.follows() || this.search.follows();
    if (!isThere && !endWaits) this.paint();
  }

  /** Shows what a link says. @param {Link} link */
  show({ step, line, watch, find }) {
    this.asked = null;
    this.forget();
    this.search.set(find);
    this.goTo(step, false, line);
    if (watch) this.ask(watch);
  }

  /** Asks who changed something last; of the event that was told last, who did before. @param {string} text */
  ask(text) {
    const watch = watchOf(text), { places } = this.run;
    const isAgain = this.asked !== null && this.asked.text === text && this.asked.number === this.number;
    if (!isAgain) this.origin = this.step;
    this.address.leave();
    const found = lastChange(places, isAgain ? places.before.at(this.number) : this.number, watch);
    this.asked = { text, watch, number: found ? found.number : isAgain ? this.number : null,
      step: found ? found.step : this.step };
    byId("who-help").hidden = true;
    if (found) this.goTo(found.step);
    if (watch.kind === "octets") this.memory.show(watch.address);
    this.answer(watch, found, isAgain);
    this.paint();
  }

  /** Shows no answer. @private */
  forget() {
    const element = byId("who");
    for (const name of ["asked", "event", "line", "before", "after"]) setAttribute(element, `data-${name}`, null);
    element.replaceChildren();
    setText(byId("told"), "");
    byId("who-help").hidden = false;
  }

  /** @private */
  answer(watch, found, isAgain) {
    const element = byId("who");
    setAttribute(element, "data-asked", this.asked.text);
    setAttribute(element, "data-event", found ? found.number : "none");
    setAttribute(element, "data-line", found ? found.line : null);
    const name = watchText(watch);
    if (!found) {
      setAttribute(element, "data-before", null);
      setAttribute(element, "data-after", null);
      const none = isAgain ? "no earlier event changed it" : "no event up to here changed it";
      element.replaceChildren(make("b", {}, name), `: ${none}`);
      setText(byId("told"), `${name}: ${none}`);
      return;
    }
    const [before, after] = sights(this.state, watch);
    setAttribute(element, "data-before", before);
    setAttribute(element, "data-after", after);
    const by = `event ${found.number}, line ${found.line}`;
    const text = visible(shortened(found.text, 200));
    element.replaceChildren(make("b", {}, name), `${isAgain ? " before that" : ""} changed by `,
      make("button", { type: "button", "data-step": found.step }, by), ": ", make("code", {}, text), " ",
      make("span", { class: "change" }, make("s", {}, shortened(before, 64)), " → ",
        make("b", {}, shortened(after, 64))));
    setText(byId("told"), `${name}: ${by}: ${shortened(before, 16)} → ${shortened(after, 16)}`);
    this.tell(name, by, found.step);
  }

  /** Keeps the answers before the last one, the newest first. @private */
  tell(name, by, step) {
    byId("trail").replaceChildren(...this.trail.map((told) =>
      make("li", {}, make("button", { type: "button", tabindex: -1, "data-step": told.step }, told.text))));
    this.trail.unshift({ step, text: `${name} · ${by}` });
    this.trail.length = Math.min(this.trail.length, MOST_TRAIL);
  }

  /** What a step is, in words. */
  stepText(step = this.step) {
    const { kind, mark, line, place, performs } = this.run.steps.at(step);
    const event = performs ? [visible(place.text), `event ${place.number}`] : [KINDS[kind][1]];
    return [...event, ...(line ? [`line ${line}`] : []), ...(mark ? [MARKS[mark][1]] : [])].join(", ");
  }

  paint() {
    const { place, run, step } = this;
    for (const panel of this.panels) panel.paint();
    this.paintSignals();
    const main = byId("run");
    for (const [name, value] of Object.entries({
      step, event: place.number, line: run.steps.lines.at(step), link: place.link ? "up" : "down",
      interrupt: place.interrupt ? 1 : 0, frames: place.frames, sent: place.sending?.count ?? 0,
    })) setAttribute(main, `data-${name}`, value);
    const back = byId("return");
    setHidden(back, this.asked === null || this.origin === step);
    setText(back, `return to step ${this.origin}`);
    this.address.follow();
  }

  /** @private */
  signals() {
    this.signalButtons = [["link", "link"], ["interrupt", "interrupt line"], ["frames", "FIFO"], ["sent", "sent"]].map(
      ([watch, words]) => {
        const value = make("b", {});
        return { watch, words, value, button: askButton(watch, { class: "signal" }, `${words} `, value) };
      });
    byId("signals").replaceChildren(...this.signalButtons.map(({ button }) => button));
  }

  /** @private */
  paintSignals() {
    const { place } = this;
    const values = { link: place.link ? "up" : "down", interrupt: place.interrupt ? "1" : "0",
      frames: String(place.frames),
      sent: String(place.sending?.count ?? 0) };
    for (const { watch, words, value, button } of this.signalButtons) {
      setText(value, values[watch]);
      const isChanged = this.changes && changed(this.run.places, this.number, watchOf(watch));
      setAttribute(button, "data-changed", isChanged ? "" : null);
      setAttribute(button, "aria-label", `${words} ${values[watch]}: who changed it last?`);
    }
  }

  /** @private */
  listen() {
    const { signal } = this.ending;
    document.addEventListener("click", (event) => {
      const button = event.target.closest("[data-watch], button[data-step], [data-show]");
      if (!button) return;
      if (button.dataset.watch) this.ask(button.dataset.watch);
      else if (button.dataset.show) this.memory.showAt(Number(button.dataset.show));
      else this.jump(Number(button.dataset.step));
    }, { signal });
    document.addEventListener("keydown", (event) => this.keyed(event), { signal });
    byId("return").addEventListener("click", () => this.jump(this.origin));
    matchMedia("(prefers-color-scheme: dark)").addEventListener("change", () => {
      readPalette();
      this.paint();
    }, { signal });
    const observer = new ResizeObserver(() => {
      if (this.isClosed) return;
      widths.clear();
      this.paint();
    });
    for (const id of ["overview", "analyser", "map"]) observer.observe(byId(id));
  }

  /** @private */
  keyed(event) {
    const { target } = event;
    if (event.defaultPrevented || event.ctrlKey || event.altKey || event.metaKey || target.closest("select")
      || (target.matches("input") && !["range", "checkbox"].includes(target.type))) return;
    const go = {
      ArrowLeft: () => (event.shiftKey ? this.timeline.move(-MOVED_PART) : this.goTo(this.step - 1)),
      ArrowRight: () => (event.shiftKey ? this.timeline.move(MOVED_PART) : this.goTo(this.step + 1)),
      "+": () => this.timeline.zoom(ZOOM_FACTOR), "-": () => this.timeline.zoom(1 / ZOOM_FACTOR),
      0: () => this.timeline.zoom(0), t: () => this.timeline.turn(),
      PageUp: () => this.goTo(this.step - PAGE_STEPS), PageDown: () => this.goTo(this.step + PAGE_STEPS),
      Home: () => this.jump(0), End: () => this.toEnd(),
      Escape: () => this.asked !== null && this.jump(this.origin),
      n: () => this.search.go(1), p: () => this.search.go(-1), "/": () => this.search.focus(),
      d: () => this.beside.go(1), D: () => this.beside.go(-1), o: () => this.beside.swap(),
      " ": target.closest("button, summary, input, [role=gridcell]") ? undefined : () =>
        this.timeline.play(!this.timeline.timer),
    }[event.key];
    if (!go) return;
    event.preventDefault();
    go();
  }
}

/**
 * Says above the page what is wrong with the record, and what is shown of it.
 * @param {string} name of the record, where there are two; else empty
 */
function tellBroken(fault, run, name = "") {
  const element = byId("broken");
  element.hidden = false;
  const rest = run ? ` What stands before that is shown: ${counted(run.steps.length - 1, "step")}.` : "";
  element.append(make("b", {}, `⚠\uFE0E This record is broken: ${name ? `${name}: ` : ""}`),
    `${visible(fault)}.${rest} `);
}

/** What a run's machine is made of, and how long it is, in words. @param {Run} run */
function settingsText(run) {
  const { base = 0, memory, budget, mac, profile } = run.settings;
  return [
    ...(run.name ? [run.name] : []), `${counted(run.script.length, "line")}, ${counted(run.steps.performed, "event")}`,
    `${counted(memory, "octet")} of memory${base ? ` from ${addressText(base)} on` : ""}`,
    ...(typeof mac === "string" && isDigits(mac) && mac.length === 12 ? [`address ${macText(octetsOf(mac))}`] : []),
    ...(profile === "adapter" ? ["an adapter of the second profile"] : []),
    ...(isNumber(budget, Infinity) ? [`a journal of ${counted(budget, "octet")}`] : []),
  ].join(" · ");
}

/** The runs of the page, of which one is shown. */
class Shown {
  /** @param {Run[]} runs one, or two to be compared */
  constructor(runs) {
    this.runs = runs;
    this.main = byId("run").cloneNode(true);
    this.two = runs.length > 1 ? new TwoRuns(runs, runs.map(({ name }) => name)) : null;
    this.put(0);
    this.app.memory.showNewest();
    this.app.address.arrive();
    if (this.two && !window.location.hash) this.app.beside.begins();
  }

  /** Shows a run in the place of another one. @param {number} side */
  put(side) {
    if (this.app) {
      this.app.close();
      byId("run").replaceWith(this.main.cloneNode(true));
      widths.clear();
    }
    byId("run").hidden = false;
    this.app = new App(this.runs[side], this, side);
    this.settings();
  }

  /** @private */
  settings() {
    setText(byId("settings"), this.app.run.isRead ? settingsText(this.app.run) : "");
  }

  /** Shows what was read of the run since. */
  grow() {
    this.app.grow();
    this.settings();
  }

  /** Shows the other run at a step. @param {number|null} difference that is shown */
  swap(step, difference) {
    const { side, address, search } = this.app, link = address.link();
    this.put(1 - side);
    Object.assign(this.app.address, { shown: link, isJump: true });
    this.app.beside.current = difference;
    this.app.show({ step, line: 0, watch: "", find: search.text });
    byId("other-run").focus();
  }
}

/** Shows what was read of one record or of two. @param {{run: Run|null, fault: string|null, name: string}[]} reads */
function show(reads) {
  setHidden(byId("reading"), true);
  for (const { run, fault, name } of reads) if (fault) tellBroken(fault, run, name);
  const runs = reads.flatMap(({ run, name }) => (run ? [Object.assign(run, { name, of: reads.length })] : []));
  if (runs.length) new Shown(runs);
}

/** Does something, and says what failed. */
function guarded(work) {
  try {
    work();
  } catch (fault) {
    tellBroken(`this page can’t show it (${wordsOfFault(fault)})`, null);
  }
}

guarded(readPalette);
readPage();

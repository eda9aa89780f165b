// Panels that stay as tall as they were while one goes step by step: what stands below them does not move, and is not
// painted again.

const STEADY = ["present", "rx", "tx", "regions", "octets", "registers", "fifo"];

class Steady {
  constructor(app) {
    /** By element, how tall it was at most. @type {Map<HTMLElement, number>} */
    this.heights = new Map();
    const { signal } = app.ending;
    this.observer = new ResizeObserver((entries) => {
      for (const { target } of entries) if (!app.isClosed) this.hold(target);
    });
    for (const id of STEADY) this.observer.observe(byId(id));
    signal.addEventListener("abort", () => this.observer.disconnect());
    // (what one opens and closes is as tall as it is)
    document.addEventListener("toggle", () => this.free(), { signal, capture: true });
    document.addEventListener("change", () => this.free(), { signal });
    window.addEventListener("resize", () => this.free(), { signal });
  }

  /** @private */
  hold(element) {
    const { height } = element.getBoundingClientRect();
    if (height <= (this.heights.get(element) ?? 0)) return;
    this.heights.set(element, height);
    element.style.setProperty("min-height", `${height}px`);
  }

  /** Lets them be as tall as they are. */
  free() {
    for (const element of this.heights.keys()) element.style.removeProperty("min-height");
    this.heights.clear();
  }
}

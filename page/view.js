// Which steps the timeline shows: it is zoomed from one step to the whole run, and drawn along, without steps between.

/** How wide a step is at first, and at most, in points. */
const FIRST_CELL = 18;
const WIDEST_CELL = 48;
/** By how much a key or a button zooms, and the wheel for each of its points. */
const ZOOM_FACTOR = 1.5;
const WHEEL_ZOOM = 0.0025;
/** A line of the wheel, where a browser counts in such, in points. */
const WHEEL_LINE = 16;
/** A pointer that was moved so far draws the view along, and chooses nothing. */
const LEAST_DRAG = 4;
/** So much of the view keys move. */
const MOVED_PART = 0.25;

class View {
  /** @param {Steps} steps @param {StepAxis|TimeAxis} axis */
  constructor(steps, axis) {
    this.steps = steps;
    this.axis = axis;
    this.wanted = FIRST_CELL;
    /** The first step that is shown, or a part of it; how wide a step is; how many are shown. */
    this.first = 0;
    this.cell = FIRST_CELL;
    this.count = 1;
    this.width = 0;
    /** The step that was shown last: another one is brought in sight. */
    this.step = -1;
  }

  /** How wide a step is where the whole run is shown: steps of a short run are not spread beyond the widest. */
  get least() {
    return Math.min(this.axis.isTime ? Infinity : WIDEST_CELL, this.width / this.steps.length);
  }

  get most() {
    return WIDEST_CELL * this.axis.widest;
  }

  /** Whether columns of points are drawn, and no steps. */
  get isColumns() {
    return this.axis.isTime || this.cell < LEAST_CELL;
  }

  /** Lies along something else from now on, and shows all of it, or steps as at first. */
  turn(axis) {
    this.axis = axis;
    this.wanted = axis.isTime ? 0 : FIRST_CELL;
    this.step = -1;
  }

  /** Goes on along an axis that has more steps; where all of them were shown, these are too. */
  grow(axis) {
    if (this.count >= this.axis.length) this.wanted = 0;
    this.axis = axis;
  }

  /** Where a step begins, in points. */
  x(step) {
    return (this.axis.at(step) - this.first) * this.cell;
  }

  /** How wide a step is, in points. */
  get wide() {
    return this.axis.wide * this.cell;
  }

  /** Fits the view into a width, and brings the present step in sight where that is another one. */
  look(width, step) {
    const isOther = step !== this.step;
    this.width = width;
    this.step = step;
    this.cell = Math.max(this.least, Math.min(this.most, this.wanted));
    this.count = width / this.cell;
    const margin = Math.min(2, this.count / 4), place = this.axis.at(step), end = place + this.axis.wide;
    if (isOther && (place < this.first + margin || end > this.first + this.count - margin)) this.centre(place);
    this.clamp();
  }

  /** @private */
  centre(place) {
    this.first = place + this.axis.wide / 2 - this.count / 2;
  }

  /** @private */
  clamp() {
    this.first = Math.max(0, Math.min(this.steps.length - this.count, this.first));
  }

  /** Zooms by a factor; what lies at a point stays there. @param {number} x in points */
  zoom(factor, x) {
    const there = this.first + x / this.cell;
    this.wanted = Math.max(this.least, Math.min(this.most, this.cell * factor));
    this.cell = this.wanted;
    this.count = this.width / this.cell;
    this.first = there - x / this.cell;
    this.clamp();
  }

  /** Where a key zooms: at the present step, where it is in sight, and else in the middle. */
  middle() {
    const x = this.x(this.step) + this.wide / 2;
    return x >= 0 && x <= this.width ? x : this.width / 2;
  }

  /** Moves the view by so many points. */
  move(by) {
    this.first += by / this.cell;
    this.clamp();
  }

  /** The step at a point. */
  stepAt(x) {
    return this.axis.stepAt(this.first + x / this.cell);
  }

  /** All that a picture of it goes by. */
  key() {
    return `${this.axis.isTime} ${this.axis.length} ${this.first} ${this.cell} ${this.width}`;
  }
}

/** The pointer and the wheel on the timeline's pictures. */
class Pointer {
  /** @param {Timeline} timeline */
  constructor(timeline) {
    this.timeline = timeline;
    const { overview, analyser, view } = timeline;
    this.wheels(overview, (x, width) => (Math.floor((x / width) * view.steps.length) + 0.5 - view.first) * view.cell);
    this.wheels(analyser, (x) => x);
    this.goes(overview);
    this.drags(analyser);
  }

  /** @private @param {(x: number, width: number) => number} pointOf where in the view a point of the canvas lies */
  wheels(canvas, pointOf) {
    canvas.addEventListener("wheel", (event) => {
      if (event.ctrlKey || event.metaKey) return;
      event.preventDefault();
      const box = canvas.getBoundingClientRect(), unit = event.deltaMode === 1 ? WHEEL_LINE : 1;
      const [across, down] = [event.deltaX * unit, event.deltaY * unit], { view } = this.timeline;
      if (event.shiftKey || Math.abs(across) > Math.abs(down)) view.move(across || down);
      else view.zoom(Math.exp(-down * WHEEL_ZOOM), pointOf(event.clientX - box.left, box.width));
      this.timeline.changed();
    }, { passive: false });
  }

  /** A pointer on the whole run goes where it points, and on as it is drawn. @private */
  goes(canvas) {
    const { app, view } = this.timeline;
    const go = (event) => {
      const box = canvas.getBoundingClientRect();
      app.goTo(view.axis.stepAt(((event.clientX - box.left) / box.width) * view.steps.length));
    };
    canvas.addEventListener("pointerdown", (event) => {
      app.address.leave();
      canvas.setPointerCapture(event.pointerId);
      go(event);
    });
    canvas.addEventListener("pointermove", (event) => event.buttons === 1 && go(event));
  }

  /** A pointer on the steps draws them along; one that stays chooses a step. @private */
  drags(canvas) {
    const { app, view } = this.timeline;
    let from = null;
    canvas.addEventListener("pointerdown", (event) => {
      canvas.setPointerCapture(event.pointerId);
      from = { at: event.clientX, start: event.clientX, isDrag: false };
    });
    canvas.addEventListener("pointermove", (event) => {
      if (!from || event.buttons !== 1) return;
      from.isDrag ||= Math.abs(event.clientX - from.start) >= LEAST_DRAG;
      if (!from.isDrag) return;
      view.move(from.at - event.clientX);
      from.at = event.clientX;
      this.timeline.changed();
    });
    canvas.addEventListener("pointerup", (event) => {
      if (from && !from.isDrag) app.jump(view.stepAt(event.clientX - canvas.getBoundingClientRect().left));
      from = null;
    });
    canvas.addEventListener("pointercancel", () => { from = null; });
  }
}

// Along what the timeline lies: steps, one beside the other, or times, where lines of the script have such.

const MICROS = 1_000_000;
/** Marks of the ruler are so far apart at least, in points. */
const LEAST_MARK = 90;
const RULER = 14;

/** Steps, each as wide as any other one. A place along it is a step, or a part of one. */
class StepAxis {
  constructor(length) {
    this.length = length;
    this.isTime = false;
    this.widest = 1;
  }

  /** Where a step begins. */
  at(step) {
    return step;
  }

  /** How wide a step is. */
  get wide() {
    return 1;
  }

  /** The step at a place. */
  stepAt(place) {
    return Math.floor(place);
  }

  /** The steps of a part, from one to another that is none of them. @returns {[number, number]} */
  range(first, end) {
    return [Math.max(0, Math.floor(first)), Math.min(this.length, Math.ceil(end))];
  }
}

/**
 * Times, over as many places as there are steps: a step lies at its time. What is older than something before it, since
 * a clock was set back, lies with that.
 */
class TimeAxis {
  /** @param {Float64Array} times of steps, in microseconds; NaN where none is known yet */
  constructor(times) {
    this.length = times.length;
    this.isTime = true;
    const known = times.find((time) => !Number.isNaN(time));
    this.begin = known;
    this.places = new Float64Array(times.length);
    let latest = known;
    for (let step = 0; step < times.length; step++) {
      if (times[step] > latest) latest = times[step];
      this.places[step] = latest - known;
    }
    this.lasts = Math.max(1, latest - known);
    /** Places of a microsecond. The last step has room too. */
    this.scale = (times.length - 1) / this.lasts || 1;
    for (let step = 0; step < times.length; step++) this.places[step] *= this.scale;
    /** How much farther one can zoom than to a step: until a microsecond is as wide as a step is at most. */
    this.widest = Math.max(1, 1 / this.scale);
  }

  at(step) {
    return this.places[Math.max(0, Math.min(this.length - 1, step))];
  }

  get wide() {
    return 0;
  }

  /** The step that is nearest to a place; of such as have one time the first. */
  stepAt(place) {
    const next = Math.min(this.length - 1, this.firstFrom(place)), before = Math.max(0, next - 1);
    return this.firstFrom(this.places[place - this.places[before] < this.places[next] - place ? before : next]);
  }

  range(first, end) {
    return [this.firstFrom(first), this.firstFrom(end)];
  }

  /** The first step that does not lie before a place. @private */
  firstFrom(place) {
    let [low, high] = [0, this.length];
    while (low < high) {
      const middle = (low + high) >> 1;
      if (this.places[middle] < place) low = middle + 1;
      else high = middle;
    }
    return low;
  }
}

/**
 * When each step was, in microseconds: the latest time of a line up to its own, as a capture of sent frames has it; NaN
 * before the first one.
 * @param {Run} run @returns {Float64Array}
 */
function stepTimes({ lines, steps }) {
  const times = new Float64Array(steps.length);
  let latest = NaN, line = 0;
  for (let step = 0; step < steps.length; step++) {
    for (const end = steps.lines.at(step); line < end; line++) {
      const time = lines.times.at(line);
      if (!Number.isNaN(time)) latest = time;
    }
    times[step] = latest;
  }
  return times;
}

/** A time in seconds, as lines have it. @param {number} time in microseconds */
function secondsText(time) {
  return `${Math.floor(time / MICROS)}.${String(time % MICROS).padStart(6, "0")}`;
}

/** A span of time in words of its size. @param {number} span in microseconds */
function spanText(span) {
  if (span === 0) return "0";
  const [unit, name] = [[MICROS, "s"], [1_000, "ms"], [1, "µs"]].find(([one]) => span >= one) ?? [1, "µs"];
  return `${Number((span / unit).toFixed(6))} ${name}`;
}

/** How far marks of a ruler are apart, in microseconds: 1, 2 or 5 and zeros. @param {number} least */
function markSpan(least) {
  const size = 10 ** Math.max(0, Math.floor(Math.log10(least)));
  return size * ([1, 2, 5].find((one) => one * size >= least) ?? 10);
}

/** Draws the ruler of times below the steps. @param {View} view */
function paintRuler(context, { axis, first, cell, width }, y) {
  const micros = cell * axis.scale, span = markSpan(LEAST_MARK / micros), from = first / axis.scale;
  context.textAlign = "left";
  context.textBaseline = "middle";
  context.font = "10px ui-monospace, monospace";
  context.fillStyle = palette.dim;
  for (let mark = Math.ceil(from / span) * span; (mark - from) * micros < width && mark <= axis.lasts; mark += span) {
    const x = (mark - from) * micros;
    context.fillRect(x, y, 1, RULER - 2);
    context.fillText(`+${spanText(mark)}`, x + 3, y + RULER / 2);
  }
}

/** The steps of a run, and its times where it has such, of which the timeline lies along one. */
class Axes {
  /** @param {Run} run */
  constructor(run) {
    this.steps = new StepAxis(run.steps.length);
    // (a run that is still read gets them when it is there)
    this.times = run.isRead && run.lines.hasTimes ? stepTimes(run) : null;
    // (lines with times may have no step)
    if (this.times?.every(Number.isNaN)) this.times = null;
    /** @type {TimeAxis|null} */
    this.byTime = this.times && new TimeAxis(this.times);
  }

  /** When a step was, in words; empty where no time is known. */
  text(step) {
    const time = this.times ? this.times[step] : NaN;
    if (Number.isNaN(time)) return "";
    const since = time - this.byTime.begin;
    return `${secondsText(time)}, ${since < 0 ? `${spanText(-since)} before` : `${spanText(since)} behind`} the first time`;
  }
}

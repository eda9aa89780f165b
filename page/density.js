// Many steps in a column of points: how many of each kind, and each way in which one came out. No mark is lost.

/** Where steps have fewer points than these, columns are drawn in their place. */
const LEAST_CELL = 3;
const KIND_COUNT = STEP_KINDS.length;
/** How tall marks are above the columns of the whole run, one row for each way to come out, and a kind's row below. */
const MARK_ROW = 4;
const KIND_ROW = 6;
/** How tall what was found is below them. */
const FOUND_ROW = 3;
/** How strong the colour of a kind is at least where it stands in a column. */
const LEAST_STRENGTH = 0.3;
/** How tall a kind's part of a column is at least. */
const LEAST_PART = 2;
/** The marks in their order, from the top down. */
const MARK_ORDER = ["refused", "bad", "differs", "dropped", "warning"];
const WARNED = 1 << MARK_KINDS.indexOf("warning");

/**
 * Steps by columns.
 * @typedef {Object} Columns
 * @property {number} count
 * @property {Uint32Array} kinds how many steps of each kind, by column and kind
 * @property {Uint32Array} gone the same of those on branches that were taken back
 * @property {Uint8Array} marks by column, which marks there are, as bits by their numbers
 */

/** The steps of a view by columns, one for each point. @param {Steps} steps @returns {Columns} */
function columnsOf(steps, { axis, first, cell }, width) {
  const count = Math.ceil(width), marks = new Uint8Array(count);
  const kinds = new Uint32Array(count * KIND_COUNT), gone = new Uint32Array(count * KIND_COUNT);
  const { performs, places, events: { takenBack } } = steps, back = KIND_NUMBER.get("back");
  const [from, end] = axis.range(first, first + count / cell);
  for (let step = from; step < end; step++) {
    const column = Math.max(0, Math.min(count - 1, Math.floor((axis.at(step) - first) * cell))), kind = steps.kinds.at(step);
    const isGone = performs.at(step) ? takenBack.at(places.at(step)) !== NEVER : kind === back;
    (isGone ? gone : kinds)[column * KIND_COUNT + kind] += 1;
    marks[column] |= (1 << steps.marks.at(step)) | (steps.warned.at(step) ? WARNED : 0);
  }
  return { count, kinds, gone, marks };
}

/** Draws in each column each kind by its share, from a height on; each that is there can be seen. */
function paintShares(context, counts, column, y, tall, wide = 1) {
  const at = column * KIND_COUNT;
  let [sum, there] = [0, 0];
  for (let kind = 0; kind < KIND_COUNT; kind++) {
    sum += counts[at + kind];
    there += counts[at + kind] > 0;
  }
  const least = Math.min(LEAST_PART, tall / Math.max(1, there));
  let top = y;
  for (let kind = 0; kind < KIND_COUNT; kind++) {
    if (!counts[at + kind]) continue;
    const part = least + (counts[at + kind] / sum) * (tall - least * there);
    context.fillStyle = palette[`kind-${STEP_KINDS[kind]}`];
    context.fillRect(column, top, wide, part);
    top += part;
  }
}

/** The colour of a mark. */
function markColour(mark) {
  return palette[mark === "refused" || mark === "bad" ? "bad" : "warn"];
}

/** Draws the marks of columns, a row for each that the run has. @param {string[]} order of the rows */
function paintMarks(context, { count, marks }, order, y, tall) {
  order.forEach((mark, row) => {
    const bit = 1 << MARK_KINDS.indexOf(mark);
    context.fillStyle = markColour(mark);
    for (let column = 0; column < count; column++) {
      if (marks[column] & bit) context.fillRect(Math.min(column, count - 2), y + row * tall, 2, tall - 1);
    }
  });
}

/** The whole run, long as it is: a row for each kind, stronger where more of its steps are, and marks above. */
class WholeRun {
  /** @param {Run} run */
  constructor({ steps }) {
    this.steps = steps;
    this.kinds = STEP_KINDS.filter((kind) => kind !== "start" && has(steps.kinds, KIND_NUMBER.get(kind)));
    this.marks = MARK_ORDER.filter((mark) => steps.marked(mark) > 0);
  }

  /** Whether a run is drawn so, in so many points. */
  isLong(width, axis) {
    return axis.isTime || width / this.steps.length < 1;
  }

  height() {
    return MARK_ROW * this.marks.length + 2 + KIND_ROW * this.kinds.length + FOUND_ROW;
  }

  paint(context, width, axis) {
    const { steps, kinds, marks } = this, columns = columnsOf(steps, { axis, first: 0, cell: width / steps.length }, width);
    paintMarks(context, columns, marks, 0, MARK_ROW);
    const top = MARK_ROW * marks.length + 2, wide = axis.isTime ? 2 : 1;
    kinds.forEach((kind, row) => this.paintKind(context, columns, kind, top + KIND_ROW * row, wide));
    context.globalAlpha = 1;
  }

  /** @private */
  paintKind(context, { count, kinds, gone }, kind, y, wide) {
    const number = KIND_NUMBER.get(kind);
    const at = (column) => kinds[column * KIND_COUNT + number] + gone[column * KIND_COUNT + number];
    let most = 1;
    for (let column = 0; column < count; column++) most = Math.max(most, at(column));
    context.fillStyle = palette[`kind-${kind}`];
    for (let column = 0; column < count; column++) {
      if (!at(column)) continue;
      context.globalAlpha = LEAST_STRENGTH + (1 - LEAST_STRENGTH) * Math.sqrt(at(column) / most);
      context.fillRect(column, y, wide, KIND_ROW - 1);
    }
  }
}

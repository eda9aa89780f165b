// A ring as a drawing: a circle of cells, head and tail as its hands, and arrows from live descriptors to their
// buffers.

/** The most arrows that lead to one buffer: more would hide it. */
const MOST_ARROWS = 6;
const DRAWING = { width: 480, height: 240, middle: 120, outer: 88, inner: 56, track: 94, apart: 4 };

/** Half of how wide a letter of a hand's name is. */
const HALF_LETTER = 3.4;

/** A point on the circle; cell 0 begins at the top, and they go clockwise. */
function onCircle(turn, radius) {
  const angle = 2 * Math.PI * turn - Math.PI / 2;
  return [DRAWING.middle + radius * Math.cos(angle), DRAWING.middle + radius * Math.sin(angle)];
}

const pointText = ([x, y]) => `${x.toFixed(1)} ${y.toFixed(1)}`;

/** A ring's drawing. A part of it is made anew only where something else is to be seen there. */
class RingDrawing {
  constructor(app, side) {
    this.app = app;
    this.groups = { cells: draw("g"), buffers: draw("g"), hands: draw("g") };
    this.element = draw("svg", { viewBox: `0 0 ${DRAWING.width} ${DRAWING.height}`, role: "img", class: "drawing" },
      arrowTip(side, "tip"), arrowTip(side, "bad-tip"), ...Object.values(this.groups));
    /** by group, what each of its parts was made of */
    this.keys = new Map();
  }

  paint({ ring, shown, first }) {
    const parts = shown.length;
    const turnOf = (index) => (index - first + 0.5) / parts;
    setAttribute(this.element, "aria-label", `${ring.side === "rx" ? "Receive" : "Transmit"} ring with head ${ring.head} `
      + `and tail ${ring.tail}; the table below has the same in words`);
    this.fill(this.groups.cells, shown.map((one, row) => this.cell(one, row, parts)));
    this.fill(this.groups.buffers, this.buffers(ring, shown, turnOf));
    this.fill(this.groups.hands, this.hands(ring, first, parts, turnOf));
  }

  /** Makes the parts of a group that differ from those that stand there. @private */
  fill(group, parts) {
    const keys = this.keys.get(group) ?? [];
    parts.forEach(({ key, make }, row) => {
      if (keys[row] === key) return;
      keys[row] = key;
      const fresh = draw("g", {}, ...make());
      if (group.children[row]) group.children[row].replaceWith(fresh);
      else group.append(fresh);
    });
    while (group.children.length > parts.length) group.lastChild.remove();
    keys.length = parts.length;
    this.keys.set(group, keys);
  }

  /** @private */
  cell(one, row, parts) {
    const isDone = one.octets !== null && (one.octets[12] & 1) !== 0;
    const isChanged = one.octets !== null && this.touches(one.address, DESCRIPTOR_OCTETS);
    return {
      key: [one.index, parts, one.owner, one.trouble, isDone, isChanged].join(),
      make: () => [cell(one, row / parts, (row + 1) / parts, isDone, isChanged)],
    };
  }

  /** @private */
  buffers(ring, shown, turnOf) {
    const found = buffersOf(shown);
    if (!found.length) {
      const attributes = { x: 300, y: DRAWING.middle + 4, class: "none" };
      return [{ key: "none", make: () => [draw("text", attributes, "no buffer is in use")] }];
    }
    const tracks = tracksOf(found.flatMap(({ of }) => of.slice(0, MOST_ARROWS)), turnOf);
    return found.map((buffer, row) => {
      const { at, size, of } = buffer;
      const isTouched = this.app.state.memory.has(at, size) && this.touches(at, size);
      const ways = of.map(({ index, trouble }) => `${index} ${turnOf(index)} ${tracks.get(index) ?? 0} ${trouble}`);
      return {
        key: [at, size, row, found.length, isTouched, ...ways].join(),
        make: () => bufferParts(ring, buffer, row, found.length, isTouched, turnOf,
          (one) => tracks.get(one.index) ?? 0),
      };
    });
  }

  /** @private */
  hands(ring, first, parts, turnOf) {
    const within = (index) => index >= first && index < first + parts;
    const isOne = ring.head === ring.tail;
    const made = [];
    const add = (name, index, words) => made.push({
      key: [name, words, index, first, parts].join(), make: () => hand(name, words, turnOf(index)),
    });
    if (within(ring.tail) && !isOne) add("tail", ring.tail, "tail");
    if (within(ring.head)) add("head", ring.head, isOne ? "head = tail" : "head");
    return made;
  }

  /** Whether the present step changed octets of this range. @private */
  touches(address, count) {
    const { changes, place } = this.app;
    return changes && place.memory.some((piece) => changedWithin(piece, Number(address), count));
  }
}

function arrowTip(side, name) {
  const path = draw("path", { d: "M0 0L7 3.5L0 7Z", class: name });
  return draw("marker", { id: `${side}-${name}`, markerWidth: 7, markerHeight: 7, refX: 6, refY: 3.5, orient: "auto" },
    path);
}

/** A descriptor as a part of the circle. */
function cell(one, from, to, isDone, isChanged) {
  const gap = Math.min(0.002, (to - from) / 10);
  const [start, end] = [from + gap, to - gap];
  const big = end - start > 0.5 ? 1 : 0;
  const path = `M${pointText(onCircle(start, DRAWING.outer))}A${DRAWING.outer} ${DRAWING.outer} 0 ${big} 1 `
    + `${pointText(onCircle(end, DRAWING.outer))}L${pointText(onCircle(end, DRAWING.inner))}A${DRAWING.inner} `
    + `${DRAWING.inner} 0 ${big} 0 ${pointText(onCircle(start, DRAWING.inner))}Z`;
  const marks = `${one.trouble ? " wrong" : ""}${isChanged ? " changed" : ""}`;
  const group = draw("g", { class: `cell ${one.owner}${marks}` }, draw("path", { d: path }));
  const [x, y] = onCircle((from + to) / 2, (DRAWING.inner + DRAWING.outer) / 2);
  if (to - from > 0.02) {
    const sign = one.trouble ? "⚠\uFE0E" : `${one.owner === "adapter" ? "A" : ""}${isDone ? "✓" : ""}`;
    group.append(draw("text", { x: x.toFixed(1), y: (y - 3).toFixed(1), class: "index" }, String(one.index)),
      draw("text", { x: x.toFixed(1), y: (y + 9).toFixed(1), class: "sign" }, sign));
  }
  group.append(draw("title", {},
    `descriptor ${one.index}, the ${one.owner}’s${one.trouble ? `: ${one.trouble}` : ""}`));
  return group;
}

/** A hand of the circle, from its middle to a cell. */
function hand(name, words, turn) {
  const [x, y] = onCircle(turn, DRAWING.inner - 3);
  const [besideX, labelY] = onCircle(turn, DRAWING.inner - 24);
  // (a long one stays within the circle, so that no cell's number is hidden)
  const most = Math.max(0, DRAWING.inner - 4 - HALF_LETTER * words.length);
  const labelX = Math.max(DRAWING.middle - most, Math.min(DRAWING.middle + most, besideX));
  return [
    draw("line", { x1: DRAWING.middle, y1: DRAWING.middle, x2: x.toFixed(1), y2: y.toFixed(1),
      class: `hand-line ${name}` }),
    draw("circle", { cx: DRAWING.middle, cy: DRAWING.middle, r: 3, class: "hub" }),
    draw("text", { x: labelX.toFixed(1), y: (labelY + 3).toFixed(1), class: `hand-name ${name}` }, words),
  ];
}

/** The buffers of live descriptors by address, each once, with the descriptors that have it. */
function buffersOf(shown) {
  const found = new Map();
  for (const one of shown) {
    if (!one.live || !one.octets || one.isExtended || one.size === 0) continue;
    const key = `${one.at} ${one.size}`;
    if (!found.has(key)) found.set(key, { at: one.at, size: one.size, of: [] });
    found.get(key).of.push(one);
  }
  const all = [...found.values()].sort((one, other) => (one.at < other.at ? -1 : one.at > other.at ? 1 : 0));
  const wrong = all.filter(({ of }) => of.some(({ trouble }) => trouble));
  const right = all.filter((buffer) => !wrong.includes(buffer));
  return [...wrong, ...right].slice(0, MOST_BUFFERS).sort((one, other) => (one.at < other.at ? -1 : 1));
}

/** A buffer's box, and the arrows that lead to it. */
function bufferParts(ring, { at, size, of }, row, rows, isTouched, turnOf, trackOf) {
  const step = Math.min(34, (DRAWING.height - 8) / rows);
  const height = Math.min(26, step - 3);
  const [left, top] = [292, (DRAWING.height - step * rows) / 2 + row * step];
  const wrong = of.find(({ trouble }) => trouble.includes("buffer"));
  const parts = of.slice(0, MOST_ARROWS).map((one) => draw("path", {
    d: arrowPath(turnOf(one.index), trackOf(one), left - 1, top + height / 2), class: wrong ? "arrow wrong" : "arrow",
    "marker-end": `url(#${ring.side}-${wrong ? "bad-tip" : "tip"})`,
  }));
  const box = draw("g", { class: `buffer${wrong ? " wrong" : ""}${isTouched ? " changed" : ""}` },
    draw("rect", { x: left, y: top.toFixed(1), width: 184, height: height.toFixed(1), rx: 2 }),
    draw("text", { x: left + 6, y: (top + height / 2 + 4).toFixed(1) }, bufferText(at, size, wrong)),
    draw("title", {}, `buffer of ${of.map(({ index }) => index).join(", ")}: ${size} octets at ${addressText(at)}`
      + (wrong ? `; ${wrong.trouble}` : "")));
  return [...parts, box];
}

/**
 * By index, the track on which an arrow from the left half goes around the circle: the nearer to the top or the bottom
 * a
 * cell is, the nearer to the circle, so that no two cross there.
 */
function tracksOf(descriptors, turnOf) {
  const tracks = new Map();
  const left = descriptors.filter(({ index }) => turnOf(index) > 0.5);
  for (const isUpper of [true, false]) {
    left.filter(({ index }) => turnOf(index) >= 0.75 === isUpper)
      .sort((one, other) => (isUpper ? turnOf(other.index) - turnOf(one.index)
        : turnOf(one.index) - turnOf(other.index)))
      .forEach(({ index }, order) => tracks.set(index, Math.min(order, 5)));
  }
  return tracks;
}

/** From a cell to a buffer's box, around the circle where the cell is in the left half. */
function arrowPath(turn, track, endX, endY) {
  const start = `M${pointText(onCircle(turn, DRAWING.outer + 1))}`;
  if (turn <= 0.5) {
    const [x, y] = onCircle(turn, DRAWING.outer + 30);
    return `${start}C${pointText([x, y])} ${endX - 44} ${endY.toFixed(1)} ${endX} ${endY.toFixed(1)}`;
  }
  const radius = DRAWING.track + track * DRAWING.apart;
  const isUpper = turn >= 0.75;
  const [x, y] = onCircle(isUpper ? 0 : 0.5, radius);
  return `${start}L${pointText(onCircle(turn, radius))}A${radius} ${radius} 0 0 ${isUpper ? 1 : 0} ${pointText([x, y])}`
    + `C${pointText([x + 90, y])} ${endX - 60} ${endY.toFixed(1)} ${endX} ${endY.toFixed(1)}`;
}

function bufferText(at, size, wrong) {
  const address = addressText(at);
  const range = address.length > 8 ? address : `${address}–${addressText(at + BigInt(size) - 1n)}`;
  if (!wrong) return range;
  const words = wrong.trouble.replace("its buffer lies ", "").replace("that of ", "").replace("memory", "");
  return `⚠\uFE0E ${address.length > 12 ? `${address.slice(0, 11)}…` : address} ${words}`;
}

// Reads the records that the page has. A long one is read in slices: its run is shown as soon as its first part is
// there, and grows. What leads further than what was read waits.

/** Of so many letters on a record that is not packed is read in slices too. */
const LONG_LETTERS = 2 ** 24;
/** About so many milliseconds a slice takes: whatever is chosen meanwhile is answered behind it. */
const SLICE = 8;
/** A run is shown from so many steps on, and whenever it has so many times more of them than were shown. */
const FIRST_STEPS = 2_000, GROWN = 1.5;
/** Every so many milliseconds the page says how far it is. */
const TOLD_EVERY = 200;

/** What a fault says, whatever was thrown. */
function wordsOfFault(fault) {
  return fault instanceof Error ? fault.message : String(fault);
}

/** Lets the browser do what waits, such as an answer to a click. */
const breath = (() => {
  const { port1, port2 } = new MessageChannel();
  return () => new Promise((done) => {
    port1.onmessage = done;
    port2.postMessage(null);
  });
})();

/** The elements of records, while the page is still coming. */
class Elements {
  constructor() {
    this.all = document.getElementsByClassName("record");
    this.isWhole = document.readyState !== "loading";
    this.wake = () => {};
    const observer = new MutationObserver(() => this.wake());
    observer.observe(document.body, { childList: true });
    document.addEventListener("DOMContentLoaded", () => {
      observer.disconnect();
      this.isWhole = true;
      this.wake();
    });
  }

  /** The first ones, once so many are there or the page is whole. @returns {Promise<HTMLElement[]>} */
  async first(count) {
    while (!this.isWhole && this.all.length < count) await new Promise((done) => { this.wake = done; });
    return [...this.all].slice(0, count);
  }
}

/** The letters of a packed record, as they come; the page keeps none of them longer. @param {Elements} elements */
async function* lettersComing(elements) {
  for (let kept = 0; ; kept = 1) {
    // (an element is whole when another one follows it)
    const element = (await elements.first(kept + 2))[kept];
    if (!element) return;
    yield element.textContent;
    if (kept) element.remove();
    else element.textContent = "";
  }
}

/** The letters of elements that are there. @param {HTMLElement[]} elements */
async function* lettersThere(elements) {
  for (const element of elements) {
    yield element.textContent;
    element.textContent = "";
  }
}

/** The parts of a record that is not packed. @param {HTMLElement[]} elements */
async function* plainParts(elements) {
  const encoder = new TextEncoder();
  for (const { textContent } of elements) {
    const octets = encoder.encode(textContent);
    for (let at = 0; at < octets.length; at += UNPACKED_AT_ONCE) yield octets.subarray(at, at + UNPACKED_AT_ONCE);
  }
}

/** A record that is read in slices. */
class SlicedReading {
  /** @param {string} name @param {number} octets how many the record has, as the page says */
  constructor(name, octets) {
    this.name = name;
    this.octets = octets;
    this.taken = 0;
    this.reading = new Reading();
    this.told = -Infinity;
  }

  /**
   * Reads all of it.
   * @param {AsyncIterable<Uint8Array>} parts
   * @returns {Promise<{run: Run|null, fault: string|null}>}
   */
  async read(parts) {
    let began = performance.now(), stopped = "";
    try {
      for await (const part of parts) {
        this.taken += part.length;
        this.reading.take(part);
        // (behind what is wrong nothing more is read)
        if (this.reading.fault !== null) break;
        if (performance.now() - began < SLICE) continue;
        this.behind();
        await breath();
        began = performance.now();
      }
    } catch (fault) {
      stopped = fault instanceof Broken ? fault.message : `this page can’t show it (${wordsOfFault(fault)})`;
    }
    const { run, fault } = this.reading.end();
    return { run, fault: stopped || fault };
  }

  /** What is done behind a slice. */
  behind() {
    if (performance.now() - this.told < TOLD_EVERY) return;
    this.told = performance.now();
    setHidden(byId("reading"), false);
    setText(byId("reading"), this.words());
  }

  /** How far it is. */
  words() {
    const share = this.octets ? ` ${Math.floor(100 * Math.min(1, this.taken / this.octets))} %` : "";
    return `Reading ${this.name || "the run"}:${share}`;
  }
}

/** The only record of a page, which is shown while it is read. */
class GrowingRun extends SlicedReading {
  /** @param {number} octets how many the record has, as the page says */
  constructor(octets) {
    super("", octets);
    /** @type {Shown|null} */
    this.shown = null;
  }

  behind() {
    const { reader } = this.reading;
    if (reader) this.grow(reader);
    super.behind();
  }

  /** @private @param {Reader} reader */
  grow(reader) {
    const { run, run: { steps } } = reader;
    if (steps.count < Math.max(FIRST_STEPS, GROWN * steps.length)) return;
    reader.tell();
    guarded(() => {
      if (this.shown) {
        this.shown.grow();
      } else {
        this.told = -Infinity;
        run.state = reader.state.twin();
        this.shown = new Shown([Object.assign(run, { name: this.name, of: 1 })]);
      }
    });
  }

  words() {
    const { reader } = this.reading, { waits } = this.shown?.app.address ?? {};
    const events = reader ? `, ${counted(reader.run.steps.performing, "event")}` : "";
    const then = waits ? ` ${waits[0].toUpperCase()}${waits.slice(1)} is shown as soon as it is read.` : "";
    return `${super.words()}${events}.${then}`;
  }

  /** Reads all of it, and shows it. */
  async show(parts) {
    const { run, fault } = await this.read(parts);
    if (!this.shown) {
      guarded(() => show([{ run, fault, name: this.name }]));
      return;
    }
    setHidden(byId("reading"), true);
    if (fault) tellBroken(fault, run, this.name);
    guarded(() => this.shown.grow());
  }
}

/**
 * The records of the page, each by the elements that it stands in.
 * @param {HTMLElement[]} elements
 * @returns {{name: string, elements: HTMLElement[]}[]}
 */
function recordsOfPage(elements) {
  const second = elements.findIndex((one, index) => index > 0 && one.dataset.name !== undefined);
  return (second < 0 ? [elements] : [elements.slice(0, second), elements.slice(second)])
    .map((own) => ({ name: visible(own[0].dataset.name ?? ""), elements: own }));
}

const isPacked = ([{ type }]) => type === PACKED_TYPE;
/** How many octets the record has that begins with an element. */
const octetsSaid = (element) => Number(element.dataset.octets ?? 0);
const lettersIn = (elements) => elements.reduce((sum, { textContent }) => sum + textContent.length, 0);

/** Reads two records and shows them beside each other: to compare them takes both. */
async function showTwo(records) {
  const reads = [];
  for (const { name, elements } of records) {
    const parts = isPacked(elements) ? unpacked(lettersThere(elements)) : plainParts(elements);
    reads.push({ ...await new SlicedReading(name, octetsSaid(elements[0])).read(parts), name });
  }
  guarded(() => show(reads));
}

/** Reads what the page has, and shows it. */
async function readPage() {
  const elements = new Elements(), [first] = await elements.first(1);
  if (first.type === PACKED_TYPE && first.dataset.name === undefined) {
    await new GrowingRun(octetsSaid(first)).show(unpacked(lettersComing(elements)));
    return;
  }
  const all = await elements.first(Infinity), records = recordsOfPage(all), letters = lettersIn(all);
  if (!all.some((one) => one.type === PACKED_TYPE) && letters < LONG_LETTERS) {
    guarded(() => show(records.map((record) => ({ ...readAtOnce(record.elements), name: record.name }))));
  } else if (records.length > 1) {
    await showTwo(records);
  } else {
    await new GrowingRun(letters).show(plainParts(all));
  }
}

/** Reads a short record. @param {HTMLElement[]} elements */
function readAtOnce(elements) {
  const encoder = new TextEncoder();
  return readRecord(elements.map(({ textContent }) => encoder.encode(textContent)));
}

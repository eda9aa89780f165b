// What is saved from the page: the frames that were sent, as a capture that em_debug's `pcap` would write here, and the
// script.

/** A classic capture with the lowest octet first: times in nanoseconds, version 2.4, snap length 65,535, Ethernet. */
const CAPTURE_HEADER = [0xA1B23C4D, 0x00040002, 0, 0, 65_535, 1];
const RECORD_WORDS = 4;
const MICROSECONDS = 1_000;

/**
 * When each of these lines came, as seconds and nanoseconds: the latest time of a line up to it; before the first one,
 * its number in microseconds.
 * @param {Lines} lines @param {number[]} numbers of lines, in their order @returns {[number, number][]}
 */
function timesOf({ times }, numbers) {
  let latest = NaN, line = 0;
  return numbers.map((number) => {
    for (; line < number; line++) if (!Number.isNaN(times.at(line))) latest = times.at(line);
    const time = Number.isNaN(latest) ? number : latest;
    return [Math.floor(time / MICROS), MICROSECONDS * (time % MICROS)];
  });
}

/** The frames that were sent up to a place, the first one first, as a capture. @returns {Uint8Array[]} its pieces */
function captureOf(run, place) {
  const frames = sentFrames(place, Infinity).reverse();
  const times = timesOf(run.lines, frames.map((frame) => frame.place.line));
  const pieces = [littleWords(CAPTURE_HEADER)];
  frames.forEach((frame, index) => {
    const octets = octetsOf(frame.list.digits(frame.number));
    pieces.push(littleWords([...times[index], octets.length, octets.length]), octets);
  });
  return pieces;
}

/** Words of 32 bits as octets, the lowest first. @param {number[]} words */
function littleWords(words) {
  const view = new DataView(new ArrayBuffer(4 * words.length));
  words.forEach((word, index) => view.setUint32(4 * index, word, true));
  return new Uint8Array(view.buffer);
}

/** Gives a file to save. @param {BlobPart[]} pieces */
function save(name, pieces, type) {
  const url = URL.createObjectURL(new Blob(pieces, { type }));
  make("a", { href: url, download: name }).click();
  setTimeout(() => URL.revokeObjectURL(url), 10_000);
}

/** The name of a file to save, by that of the script, which the page's title has; of two runs by the own name. */
function fileName(ending, own) {
  const [, name] = /^(.+?)(?:\.\w+)?: a run of /.exec(own ? `${own}: a run of ` : document.title) ?? ["", "run"];
  return `${name.replace(/[^\w.-]/g, "_").replace(/^\.+/, "_")}.${ending}`;
}

class Saved {
  constructor(app) {
    this.app = app;
    byId("save-script").addEventListener("click", () =>
      save(fileName("em", app.run.name), app.run.script.map((line) => `${line}\n`), "text/plain"));
    byId("save-pcap").addEventListener("click", () =>
      save(fileName("pcap", app.run.name), captureOf(app.run, app.place), "application/vnd.tcpdump.pcap"));
  }

  paint() {
    byId("save-script").disabled = !this.app.run.isRead;
    const count = this.app.place.sending?.count ?? 0;
    setText(byId("save-pcap"), `save ${counted(count, "frame")} as pcap`);
    byId("save-pcap").disabled = count === 0;
  }
}

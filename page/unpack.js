// A long record stands in the page packed: gzip, in letters as base64 has them.

const PACKED_TYPE = "application/gzip";
const SIXTY_FOUR = "ABCDEFGHIJKLMNOPQRSTUVWXYZabcdefghijklmnopqrstuvwxyz0123456789+/";
/** So many octets are given to be unpacked at once. */
const UNPACKED_AT_ONCE = 2 ** 15;

/** The octets that letters of base64 say. @param {string} text */
function octetsOfLetters(text) {
  // (newer browsers do it themselves, and sooner)
  if (Uint8Array.fromBase64) return Uint8Array.fromBase64(text);
  const values = new Uint8Array(256);
  for (let value = 0; value < SIXTY_FOUR.length; value++) values[SIXTY_FOUR.charCodeAt(value)] = value;
  const letters = new TextEncoder().encode(text.trim()), { length } = letters;
  const missing = text.trim().endsWith("==") ? 2 : text.trim().endsWith("=") ? 1 : 0;
  const octets = new Uint8Array((length >> 2) * 3);
  for (let i = 0, at = 0; i + 3 < length; i += 4, at += 3) {
    const value = (values[letters[i]] << 18) | (values[letters[i + 1]] << 12) | (values[letters[i + 2]] << 6)
      | values[letters[i + 3]];
    octets[at] = value >> 16;
    octets[at + 1] = value >> 8;
    octets[at + 2] = value;
  }
  return octets.subarray(0, octets.length - missing);
}

/** Octets that come piece by piece, as parts of whole lines. A piece is not copied, but for the lines at its ends. */
class Parts {
  constructor() {
    /** What came behind the last newline. */
    this.begun = [];
  }

  /** Takes a piece. @param {Uint8Array} piece @returns {Uint8Array[]} the parts that are whole with it */
  push(piece) {
    const first = piece.indexOf(NEWLINE) + 1, last = piece.lastIndexOf(NEWLINE) + 1, { begun } = this;
    if (first === 0) {
      begun.push(piece);
      return [];
    }
    this.begun = last < piece.length ? [piece.slice(last)] : [];
    const from = begun.length ? first : 0, whole = from < last ? [piece.subarray(from, last)] : [];
    return begun.length ? [joined([...begun, piece.subarray(0, first)]), ...whole] : whole;
  }

  /** What is left. @returns {Uint8Array[]} */
  end() {
    return this.begun.length ? [joined(this.begun)] : [];
  }
}

/** Pieces as one. @param {Uint8Array[]} pieces */
function joined(pieces) {
  const octets = new Uint8Array(pieces.reduce((sum, { length }) => sum + length, 0));
  let at = 0;
  for (const piece of pieces) {
    octets.set(piece, at);
    at += piece.length;
  }
  return octets;
}

/**
 * Unpacks a record, and gives each part of it as soon as it is there.
 * @param {AsyncIterable<string>} letters
 * @returns {AsyncIterable<Uint8Array>}
 */
async function* unpacked(letters) {
  const { readable, writable } = new DecompressionStream("gzip"), reader = readable.getReader(), parts = new Parts();
  pack(letters, writable.getWriter());
  try {
    for (;;) {
      const { done, value } = await reader.read();
      if (done) break;
      yield* parts.push(value);
    }
    yield* parts.end();
  } catch (fault) {
    throw new Broken(`it was packed, and can’t be unpacked (${wordsOfFault(fault)})`);
  } finally {
    // (where no more is wanted, no more is unpacked)
    reader.cancel().catch(() => {});
  }
}

/** Gives letters to be unpacked, so many at once as are read. What is wrong with them is told where they are read. */
async function pack(letters, writer) {
  try {
    for await (const text of letters) {
      const octets = octetsOfLetters(text);
      for (let at = 0; at < octets.length; at += UNPACKED_AT_ONCE) {
        await writer.write(octets.subarray(at, at + UNPACKED_AT_ONCE));
      }
    }
    await writer.close();
  } catch (fault) {
    writer.abort(fault).catch(() => {});
  }
}

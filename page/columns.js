// Columns: numbers one behind another in a typed array, and texts by numbers. A run of a million events has no object
// for each.

/** Numbers, one behind another, of which more may come. */
class Numbers {
  /**
   * @param {Uint8ArrayConstructor|Uint16ArrayConstructor|Uint32ArrayConstructor|Float64ArrayConstructor} type
   * @param {number} [room] for so many at first
   */
  constructor(type, room = 1024) {
    this.values = new type(room);
    this.length = 0;
  }

  push(value) {
    if (this.length === this.values.length) {
      const values = new this.values.constructor(2 * this.length);
      values.set(this.values);
      this.values = values;
    }
    this.values[this.length++] = value;
  }

  at(index) {
    return this.values[index];
  }

  set(index, value) {
    this.values[index] = value;
  }
}

/**
 * Columns with as many rows each, which grow together. A column is a typed array by its name; `length` is how many rows
 * count.
 */
class Table {
  /**
   * @param {Object<string,
   * Uint8ArrayConstructor|Uint16ArrayConstructor|Uint32ArrayConstructor|Float64ArrayConstructor>} types
   */
  constructor(types) {
    this.names = Object.keys(types);
    this.length = 0;
    this.room = 1024;
    for (const name of this.names) this[name] = new types[name](this.room);
  }

  /** Makes the next row, whose fields are then set. @returns {number} which one it is */
  add() {
    if (this.length === this.room) {
      this.room *= 2;
      for (const name of this.names) {
        const values = new this[name].constructor(this.room);
        values.set(this[name]);
        this[name] = values;
      }
    }
    return this.length++;
  }
}

/** Texts, each kept once, by numbers from 0 in the order in which they came. */
class Texts {
  constructor() {
    /** @type {string[]} */
    this.list = [];
    this.numbers = new Map();
  }

  numberOf(text) {
    let number = this.numbers.get(text);
    if (number === undefined) {
      number = this.list.push(text) - 1;
      this.numbers.set(text, number);
    }
    return number;
  }
}

/** Texts of ASCII by their octets: the same octets give the same text, and it is made once. */
class Letters {
  constructor() {
    this.texts = [];
    /** By place, one more than the number of a text, and 0 where none is. */
    this.places = new Uint32Array(4_096);
    this.decoder = new TextDecoder();
  }

  /** The text between two places. @param {Uint8Array} octets @param {number} sum of its letters, as `grow` makes it */
  at(octets, from, end, sum) {
    const { places, texts } = this, mask = places.length - 1;
    let place = (sum ^ (sum >>> 15)) & mask;
    for (; places[place]; place = (place + 1) & mask) {
      const text = texts[places[place] - 1];
      if (text.length === end - from && this.isText(text, octets, from)) return text;
    }
    const text = this.decoder.decode(octets.subarray(from, end));
    places[place] = texts.push(text);
    if (2 * texts.length > places.length) this.grow();
    return text;
  }

  /** @private */
  isText(text, octets, from) {
    for (let i = 0; i < text.length; i++) if (text.charCodeAt(i) !== octets[from + i]) return false;
    return true;
  }

  /** @private */
  grow() {
    const { texts } = this, places = new Uint32Array(4 * this.places.length), mask = places.length - 1;
    texts.forEach((text, number) => {
      let sum = 0;
      for (let i = 0; i < text.length; i++) sum = (Math.imul(sum, 31) + text.charCodeAt(i)) | 0;
      let place = (sum ^ (sum >>> 15)) & mask;
      while (places[place]) place = (place + 1) & mask;
      places[place] = number + 1;
    });
    this.places = places;
  }
}

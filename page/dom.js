// Elements and texts. Data of a record comes into the page as text nodes and attributes alone.

/**
 * Makes an element of HTML.
 * @param {string} tag
 * @param {Object<string, string|number|boolean|null>} [attributes] those that are null or false are left out
 * @param {...(Node|string)} children
 * @returns {HTMLElement}
 */
function make(tag, attributes = {}, ...children) {
  return filled(document.createElement(tag), attributes, children);
}

/** Makes an element of a drawing (SVG). @returns {SVGElement} */
function draw(tag, attributes = {}, ...children) {
  return filled(document.createElementNS("http://www.w3.org/2000/svg", tag), attributes, children);
}

function filled(element, attributes, children) {
  for (const [name, value] of Object.entries(attributes)) {
    if (value !== null && value !== false) element.setAttribute(name, value === true ? "" : String(value));
  }
  element.append(...children);
  return element;
}

/** The element of an id, which the page has. @returns {HTMLElement} */
function byId(id) {
  return document.getElementById(id);
}

/** Sets an element's text, where it is another one. */
function setText(element, text) {
  if (element.textContent !== text) element.textContent = text;
}

/** Sets an attribute, where its value is another one; null takes it away. */
function setAttribute(element, name, value) {
  if (value === null) element.removeAttribute(name);
  else if (element.getAttribute(name) !== String(value)) element.setAttribute(name, String(value));
}

/** Hides an element or shows it, where it is not so already. */
function setHidden(element, hidden) {
  if (element.hidden !== hidden) element.hidden = hidden;
}

/** Lets a control be used or not, where it is not so already. */
function setDisabled(control, disabled) {
  if (control.disabled !== disabled) control.disabled = disabled;
}

/** Makes these an element's children, and puts in and takes out only those that were not, or stood elsewhere. */
function arrange(element, children) {
  const wanted = new Set(children);
  for (const child of [...element.childNodes]) if (!wanted.has(child)) child.remove();
  let there = element.firstChild;
  for (const child of children) {
    if (child === there) there = there.nextSibling;
    else element.insertBefore(child, there);
  }
}

/**
 * Makes an element's children like those of another list, and changes only what differs: what stays is not laid out
 * again, and keeps the focus.
 * @param {Element} element @param {Node[]} children
 */
function become(element, children) {
  const there = [...element.childNodes];
  children.forEach((child, index) => {
    if (index < there.length) morph(there[index], child);
    else element.append(child);
  });
  for (const child of there.slice(children.length)) child.remove();
}

/** @param {Node} old in the page @param {Node} fresh outside it */
function morph(old, fresh) {
  if (old.nodeName !== fresh.nodeName) {
    old.replaceWith(fresh);
  } else if (old.nodeType === Node.TEXT_NODE) {
    if (old.data !== fresh.data) old.data = fresh.data;
  } else {
    for (const { name } of [...old.attributes]) if (!fresh.hasAttribute(name)) old.removeAttribute(name);
    for (const { name, value } of fresh.attributes) if (old.getAttribute(name) !== value) old.setAttribute(name, value);
    become(old, [...fresh.childNodes]);
  }
}

/**
 * A button that asks who changed something. What it asks about stands in `data-watch`; main.js listens for its click.
 * It stands in a group, in which the arrows lead to it.
 * @param {string} watch
 * @param {Object<string, string|number|boolean|null>} attributes
 */
function askButton(watch, attributes, ...children) {
  return make("button", { type: "button", "data-watch": watch, tabindex: -1, ...attributes }, ...children);
}

/**
 * A number as hexadecimal digits in upper case.
 * @param {number|bigint} value
 * @param {number} digits the least number
 */
function hex(value, digits) {
  return value.toString(16).toUpperCase().padStart(digits, "0");
}

/** An address of guest memory, as texts of the project write it: by octets, three at least. */
function addressText(address) {
  const digits = hex(address, 6);
  return digits.length % 2 === 0 ? digits : `0${digits}`;
}

/** The octets from an address on, as a range. */
function rangeText(address, count) {
  return count === 1 ? addressText(address) : `${addressText(address)}–${addressText(address + count - 1)}`;
}

const DIGITS = new Map([..."0123456789ABCDEFabcdef"].map((digit) => [digit.charCodeAt(0), parseInt(digit, 16)]));
const DIGIT_OF = new Uint8Array(128);
for (const [code, value] of DIGITS) DIGIT_OF[code] = value;

/** Decodes hexadecimal digits, an even number of them. @param {string} digits @returns {Uint8Array} */
function octetsOf(digits) {
  const octets = new Uint8Array(digits.length >> 1);
  for (let i = 0; i < octets.length; i++) {
    octets[i] = (DIGIT_OF[digits.charCodeAt(2 * i)] << 4) | DIGIT_OF[digits.charCodeAt(2 * i + 1)];
  }
  return octets;
}

const PAIRS = Array.from({ length: 256 }, (_, octet) => hex(octet, 2));

/** Octets as hexadecimal digits. @param {Uint8Array} octets */
function digitsOf(octets) {
  let text = "";
  for (const octet of octets) text += PAIRS[octet];
  return text;
}

const GROUPED = new Intl.NumberFormat("en");

/** A number as a text, with a comma between thousands. */
function grouped(number) {
  return number < 1_000 ? String(number) : GROUPED.format(number);
}

/** A number with its thing: `1 event`, `12,000 events`. */
function counted(count, thing) {
  return `${grouped(count)} ${thing}${count === 1 ? "" : "s"}`;
}

/** A text of at most so many characters, with what is left out told. */
function shortened(text, most) {
  if (text.length <= most) return text;
  return `${text.slice(0, most)}… (${grouped(text.length)} characters)`;
}

/** In so many characters of a place, the last ones, its file and line are sought. */
const MOST_OF_PLACE = 200;

/** The last characters of a text, at most so many: of a path they say most. */
function endOf(text, most) {
  if (text.length <= most) return text;
  // (half of a character is none)
  return `…${text.slice(1 - most).replace(/^[\uDC00-\uDFFF]/, "")}`;
}

/** A place that a line comes from, in at most so many characters: of a long one its file and line. */
function shortPlace(text, most) {
  if (text.length <= most) return text;
  const from = Math.max(0, text.length - MOST_OF_PLACE);
  const place = /[^\s/]+:\d+(?= |$)/u.exec(text.slice(from));
  if (!place) return endOf(text, most);
  const end = from + place.index + place[0].length, before = text.startsWith("before ") ? "before " : "";
  if (end === text.length) return endOf(`${before}…${place[0]}`, most);
  if (end < most) return `${text.slice(0, most - 1)}…`;
  return `${endOf(`${before}${place[0]}`, most - 1)}…`;
}

// what is no letter, and can hide others or put them in another order: separators, marks that take no room, and those
// that turn the direction of writing
const UNSEEN = new RegExp("[\\u0080-\\u009F\\u00AD\\u034F\\u061C\\u115F\\u1160\\u17B4\\u17B5\\u180B-\\u180F\\u200B\\u200E\\u200F"
  + "\\u2028-\\u202E\\u2060-\\u206F\\u3164\\uFEFF\\uFFA0\\uFFF0-\\uFFFB\\u{13430}-\\u{1343F}\\u{1BCA0}-\\u{1BCA3}"
  + "\\u{1D173}-\\u{1D17A}\\u{E0000}-\\u{E0FFF}]", "gu");

/** A text whose control characters can be seen: no line looks like another one. */
function visible(text) {
  // eslint-disable-next-line no-control-regex
  return text.replace(/[\u0000-\u001F\u007F]/g, (mark) =>
    mark === "\u007F" ? "\u2421" : String.fromCharCode(0x2400 + mark.charCodeAt(0)))
    .replace(UNSEEN, (mark) => `\u27E8U+${hex(mark.codePointAt(0), 4)}\u27E9`);
}

// Frames opened: which protocols a frame has within each other, and the fields of each. A frame is data, whoever sent
// it: no length in it is believed, and what ends too early says so.

/** How many octets an Ethernet frame has at most behind a field that is a length and not a type. */
const MOST_LENGTH_FIELD = 1500;
/** So many protocols within each other are opened. */
const MOST_LAYERS = 16;
const TYPES = new Map([[0x0800, "IPv4"], [0x0806, "ARP"], [0x86DD, "IPv6"], [0x8100, "VLAN"], [0x88CC, "LLDP"],
  [0x88A8, "S-VLAN"]]);
const IP_PROTOCOLS = new Map([[0, "hop-by-hop options"], [1, "ICMP"], [2, "IGMP"], [6, "TCP"], [17, "UDP"],
  [43, "routing"], [44, "fragment"], [58, "ICMPv6"], [59, "nothing"], [60, "destination options"]]);
const ARP_OPERATIONS = new Map([[1, "request"], [2, "reply"]]);
const ICMP_TYPES = new Map([[0, "echo reply"], [3, "unreachable"], [5, "redirect"], [8, "echo request"],
  [11, "time exceeded"]]);
const ICMPV6_TYPES = new Map([[1, "unreachable"], [2, "packet too big"], [3, "time exceeded"], [128, "echo request"],
  [129, "echo reply"], [133, "router solicitation"], [134, "router advertisement"], [135, "neighbor solicitation"],
  [136, "neighbor advertisement"]]);
const TCP_FLAGS = ["FIN", "SYN", "RST", "PSH", "ACK", "URG", "ECE", "CWR", "NS"];
const IP_FLAGS = ["MF", "DF", "reserved"];

/** How a field's number is written, where not in decimal. */
const FORMS = {
  hex: (value, bits) => hex(value, Math.ceil(bits / 4)),
  type: (value) => (value <= MOST_LENGTH_FIELD ? `${value}, a length` : named(hex(value, 4), TYPES.get(value))),
  protocol: (value) => named(value, IP_PROTOCOLS.get(value)),
  operation: (value) => named(value, ARP_OPERATIONS.get(value)),
  icmp: (value) => named(value, ICMP_TYPES.get(value)),
  icmpv6: (value) => named(value, ICMPV6_TYPES.get(value)),
  tcpFlags: (value) => bitsText(value, TCP_FLAGS),
  ipFlags: (value) => bitsText(value, IP_FLAGS),
};

/** By protocol, its fields in their order: name, how many bits it has, how it is written. */
const PROTOCOLS = {
  Ethernet: [["to", 48, "mac"], ["from", 48, "mac"], ["type", 16, "type"]],
  VLAN: [["priority", 3], ["CFI", 1], ["VLAN", 12], ["type", 16, "type"]],
  ARP: [["hardware", 16], ["protocol", 16, "hex"], ["octets of a hardware address", 8],
    ["octets of a protocol address", 8], ["operation", 16, "operation"], ["sender", 48, "mac"],
    ["sender’s IP", 32, "ipv4"], ["target", 48, "mac"], ["target’s IP", 32, "ipv4"]],
  IPv4: [["version", 4], ["header words", 4], ["services", 6, "hex"], ["ECN", 2], ["length", 16],
    ["identification", 16, "hex"], ["flags", 3, "ipFlags"], ["fragment offset", 13], ["TTL", 8], ["protocol", 8, "protocol"], ["checksum", 16, "hex"],
    ["from", 32, "ipv4"], ["to", 32, "ipv4"]],
  IPv6: [["version", 4], ["traffic class", 8, "hex"], ["flow label", 20, "hex"], ["length", 16],
    ["next header", 8, "protocol"], ["hop limit", 8], ["from", 128, "ipv6"], ["to", 128, "ipv6"]],
  "IPv6 options": [["next header", 8, "protocol"], ["more units of 8", 8]],
  UDP: [["from port", 16], ["to port", 16], ["length", 16], ["checksum", 16, "hex"]],
  TCP: [["from port", 16], ["to port", 16], ["sequence", 32], ["acknowledgment", 32], ["header words", 4],
    ["reserved", 3], ["flags", 9, "tcpFlags"], ["window", 16], ["checksum", 16, "hex"], ["urgent", 16]],
  ICMP: [["type", 8, "icmp"], ["code", 8], ["checksum", 16, "hex"]],
  ICMPv6: [["type", 8, "icmpv6"], ["code", 8], ["checksum", 16, "hex"]],
  echo: [["identifier", 16], ["sequence", 16]],
};

/** What follows a protocol: by its fields and the octets that its header has, in `follows`. */
const FOLLOWERS = {
  Ethernet: ({ type }) => byType(type),
  VLAN: ({ type }) => byType(type),
  IPv4: (fields) => ({
    header: 4 * fields["header words"], least: 20, whole: fields.length,
    next: fields["fragment offset"] ? "" : byProtocol(fields.protocol),
  }),
  IPv6: (fields) => ({ whole: 40 + fields.length, next: byProtocol(fields["next header"]) }),
  "IPv6 options": (fields) => ({ header: 8 + 8 * fields["more units of 8"], next: byProtocol(fields["next header"]) }),
  UDP: (fields) => ({ whole: fields.length, leastWhole: 8, next: "" }),
  TCP: (fields) => ({ header: 4 * fields["header words"], least: 20, next: "" }),
  ICMP: ({ type }) => ({ next: type === 0 || type === 8 ? "echo" : "" }),
  ICMPv6: ({ type }) => ({ next: type === 128 || type === 129 ? "echo" : "" }),
};

/** The protocol of an Ethernet frame's type; a field that is a length says how many octets follow. */
function byType(type) {
  if (type <= MOST_LENGTH_FIELD) return { length: type, next: "" };
  const name = TYPES.get(type) ?? "";
  return { next: name === "S-VLAN" ? "VLAN" : Object.hasOwn(PROTOCOLS, name) ? name : "" };
}

/** The protocol that an IP packet says. */
function byProtocol(protocol) {
  if ([0, 43, 60].includes(protocol)) return "IPv6 options";
  const name = IP_PROTOCOLS.get(protocol) ?? "";
  return Object.hasOwn(PROTOCOLS, name) ? name : "";
}

const named = (value, name) => (name ? `${value} ${name}` : String(value));
const bitsText = (value, names) => named(value, names.filter((_, bit) => (value >>> bit) & 1).join(" "));

/**
 * A protocol that was found in a frame.
 * @typedef {Object} Layer
 * @property {string} name
 * @property {number} at its first octet
 * @property {number} end behind its header, within the frame
 * @property {[string, string][]} fields names and texts
 * @property {Object<string, number>} values those that are numbers, by name
 * @property {string} trouble what is wrong with it; empty where nothing is
 */

/**
 * The protocols of a frame, the outermost first; the last one may be `data`, what no protocol here has.
 * @returns {Layer[]}
 */
function layersOf(octets) {
  const layers = [];
  let next = "Ethernet", at = 0, end = octets.length;
  while (next && layers.length < MOST_LAYERS) {
    const layer = layerOf(next, octets, at, end);
    layers.push(layer);
    const follows = { next: "", ...(layer.isCut ? {} : FOLLOWERS[next]?.(layer.values)) };
    end = endOfLayer(layer, follows, end);
    at = layer.end;
    next = follows.next;
  }
  const rest = (name, from, to) => (from < to ? [{ name, at: from, end: to, fields: [], values: {}, trouble: "" }] : []);
  return [...layers, ...rest("data", at, end), ...rest("padding", end, octets.length)];
}

/** The fields of a protocol, as many as stand there whole. @private @returns {Layer} */
function layerOf(name, octets, at, end) {
  const layer = { name, at, end: at, fields: [], values: {}, trouble: "", isCut: false };
  let bit = 8 * at;
  for (const [field, bits, form] of PROTOCOLS[name]) {
    if (bit + bits > 8 * end) {
      layer.isCut = true;
      layer.trouble = `it ends before its ${field}`;
      layer.end = end;
      return layer;
    }
    layer.fields.push([field, fieldOfFrame(octets, bit, bits, form, layer.values, field)]);
    bit += bits;
  }
  layer.end = bit / 8;
  return layer;
}

/** A field's text; one of at most 32 bits is also kept as a number. @private */
function fieldOfFrame(octets, bit, bits, form, values, name) {
  if (form === "mac") return macText(octets.subarray(bit / 8, bit / 8 + 6));
  if (form === "ipv4") return [...octets.subarray(bit / 8, bit / 8 + 4)].join(".");
  if (form === "ipv6") return ipv6Text(octets.subarray(bit / 8, bit / 8 + 16));
  let value = 0;
  for (let i = bit; i < bit + bits; i++) value = 2 * value + ((octets[i >> 3] >>> (7 - (i & 7))) & 1);
  values[name] = value;
  return form ? FORMS[form](value, bits) : String(value);
}

/** An IPv6 address: the longest run of zeros, of two words at least, as `::`. @param {Uint8Array} octets */
function ipv6Text(octets) {
  const words = Array.from({ length: 8 }, (_, i) => ((octets[2 * i] << 8) | octets[2 * i + 1]).toString(16));
  let [from, most] = [0, 1];
  for (let i = 0, run = 0; i < 8; i++) {
    run = words[i] === "0" ? run + 1 : 0;
    if (run > most) [from, most] = [i + 1 - run, run];
  }
  if (most < 2) return words.join(":");
  return `${words.slice(0, from).join(":")}::${words.slice(from + most).join(":")}`;
}

/** Where what a protocol carries ends; puts where its header ends into the layer, and what is wrong. @private */
function endOfLayer(layer, { header, least = 0, whole, leastWhole = 0, length }, end) {
  if (header !== undefined) {
    if (header < least) layer.trouble = `its header would have ${counted(header, "octet")}`;
    else if (layer.at + header > end) layer.trouble = `its header of ${counted(header, "octet")} ends behind it`;
    layer.end = Math.min(end, Math.max(layer.end, layer.at + header));
  }
  const from = length === undefined ? layer.at : layer.end, says = length ?? whole;
  if (says === undefined) return end;
  if (from + says > end) layer.trouble ||= `it says ${counted(says, "octet")}, and ${end - from} are there`;
  else if (says < leastWhole || from + says < layer.end) layer.trouble ||= `it says ${counted(says, "octet")}`;
  return Math.max(layer.end, Math.min(end, from + says));
}

/** A frame in one line: what its innermost protocol is, from whom to whom. @param {Layer[]} layers */
function frameSummary(layers) {
  const of = (name) => layers.find((layer) => layer.name === name);
  const text = (layer, field) => layer?.fields.find(([name]) => name === field)?.[1] ?? "?";
  const last = layers.filter(({ name, fields }) => fields.length && name !== "echo").pop(), ip = of("IPv4") ?? of("IPv6");
  if (!last || last.name === "Ethernet" || last.name === "VLAN") return "";
  if (last.name === "ARP") {
    const operation = text(last, "operation").replace(/^\d+ /, "");
    return `ARP ${operation} ${text(last, "sender’s IP")} → ${text(last, "target’s IP")}`;
  }
  const port = (field) => (last.name === "UDP" || last.name === "TCP" ? ` port ${text(last, field)}` : "");
  const more = last.name.startsWith("ICMP") ? ` ${text(last, "type").replace(/^\d+ /, "")}`
    : last.name === "TCP" ? ` ${text(last, "flags").replace(/^\d+ /, "")}` : "";
  return `${last.name}${more} ${text(ip, "from")}${port("from port")} → ${text(ip, "to")}${port("to port")}`;
}

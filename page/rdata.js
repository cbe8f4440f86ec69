// SPDX-License-Identifier: MIT
// Types and rdata in presentation form (RFC 1035 section 5.1; by RFC 3597 section 5 for other types
// and for rdata without the form of their type, since the cache keeps some rdata as they are).
// This text is only shown: it does not go back to the module.

const TYPES = {
  1: 'A', 2: 'NS', 5: 'CNAME', 6: 'SOA', 12: 'PTR', 13: 'HINFO', 15: 'MX', 16: 'TXT', 28: 'AAAA',
  33: 'SRV', 35: 'NAPTR', 39: 'DNAME', 43: 'DS', 46: 'RRSIG', 47: 'NSEC', 48: 'DNSKEY', 50: 'NSEC3',
  51: 'NSEC3PARAM', 52: 'TLSA', 64: 'SVCB', 65: 'HTTPS', 257: 'CAA',
};
const CLASSES = { 3: 'CH', 4: 'HS' };
const OUTCOMES = { kept: 'stored', cleared: 'cleared', less: 'outranked' };
const MOST_IN_LABEL = 63; // octets of a label, and of a name (RFC 1035 section 2.3.4)
const MOST_IN_NAME = 255;

function typeName(number) {
  return TYPES[number] ?? `TYPE${number}`;
}

// The text for a slot of a report, such as 1, nx, failed1 or 16/3.
function slotName(slot) {
  const [, failed, type, of] = /^(failed)?(\d+|nx)(?:\/(\d+))?$/.exec(slot);
  const name = type === 'nx' ? 'no such name' : typeName(type);
  return `${of ? `${CLASSES[of] ?? `CLASS${of}`} ` : ''}${failed ? `failed ${name}` : name}`;
}

function octetsOf(hex) {
  return hex === '-' ? [] : hex.match(/../g).map((it) => parseInt(it, 16));
}

// An octet of a label, in the text form of names.
function escaped(octet) {
  const char = String.fromCharCode(octet);
  if (char === '.' || char === '\\') return `\\${char}`;
  return octet > 32 && octet < 127 ? char : `\\${String(octet).padStart(3, '0')}`;
}

// An octet of a character string, in quotes.
function quoted(octet) {
  const char = String.fromCharCode(octet);
  if (char === '"') return '\\"';
  return char === ' ' || char === '.' ? char : escaped(octet);
}

// Reads rdata from the beginning. If octets are missing, `place` comes to lie past the end.
class Rdata {
  constructor(octets) {
    this.octets = octets;
    this.place = 0;
    this.hasNames = true; // whether all names that were read are names
  }

  // Whether the rdata have the form that was read: no octet is missing or left over.
  isWhole() {
    return this.hasNames && this.place === this.octets.length;
  }

  number(size) {
    const front = this.octets.slice(this.place, this.place + size);
    this.place += size;
    return front.reduce((sum, it) => sum * 256 + it, 0);
  }

  name() {
    const start = this.place;
    let text = '';
    for (let size = this.number(1); size; size = this.number(1)) {
      this.hasNames &&= size <= MOST_IN_LABEL;
      text += `${this.octets.slice(this.place, this.place + size).map(escaped).join('')}.`;
      this.place += size;
    }
    this.hasNames &&= this.place - start <= MOST_IN_NAME;
    return text || '.';
  }

  // At least one string (RFC 1035 section 3.3.14).
  strings() {
    const all = [];
    do {
      const size = this.number(1);
      const octets = this.octets.slice(this.place, this.place + size);
      all.push(`"${octets.map(quoted).join('')}"`);
      this.place += size;
    } while (this.place < this.octets.length);
    return all.join(' ');
  }

  // The browser shortens an address of IPv6 as RFC 5952 does.
  address6() {
    const words = Array.from({ length: 8 }, () => this.number(2).toString(16));
    return new URL(`http://[${words.join(':')}]/`).hostname.slice(1, -1);
  }
}

const READERS = {
  1: (it) => [1, 1, 1, 1].map((size) => it.number(size)).join('.'),
  28: (it) => it.address6(),
  6: (it) => [it.name(), it.name(), ...[4, 4, 4, 4, 4].map((size) => it.number(size))].join(' '),
  15: (it) => `${it.number(2)} ${it.name()}`,
  16: (it) => it.strings(),
  33: (it) => `${it.number(2)} ${it.number(2)} ${it.number(2)} ${it.name()}`,
};
for (const type of [2, 5, 12, 39]) READERS[type] = (it) => it.name();

function rdataText(type, hex) {
  const octets = octetsOf(hex);
  const rdata = new Rdata(octets);
  const text = READERS[type]?.(rdata);
  if (text !== undefined && rdata.isWhole()) return text;
  return `\\# ${octets.length} ${octets.length ? hex : ''}`.trim();
}

// The rdata of an RRset, or of the SOA record of a negative answer.
function itemsText(type, items) {
  return items.split(',').map((it) => rdataText(type, it)).join(', ');
}

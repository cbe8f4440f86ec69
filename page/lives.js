// SPDX-License-Identifier: MIT
// The contents of each key over time and the asks for it, from the texts that the module returns:
// offers and asks from the histories (docs/FORMATS.md, "Archives"), and what a key held, until when
// and what ended it from the spans (`rrc_page_spans` in crates/rrc_page/src/page_calls.rt).

const BODY_WORDS = { set: 5, negative: 5, failure: 2 };
const TYPE_OF_SOA = 6;

class Lives {
  constructor() {
    this.keys = new Map(); // by name and slot, in the order of their first events
    this.offers = []; // of all lines, in their order
    this.places = new Map(); // the offers by line and place
  }

  key(name, slot) {
    const text = `${name} ${slot}`;
    if (!this.keys.has(text)) this.keys.set(text, { name, slot, spans: [], asks: [] });
    return this.keys.get(text);
  }

  offer([, line, place, moment, name, slot, ...rest]) {
    const size = BODY_WORDS[rest[0]];
    const body = bodyOf(rest.slice(0, size), slot);
    const key = this.key(name, slot);
    const offer = { line: Number(line), moment: Number(moment), key, outcome: rest[size], ...body };
    this.offers.push(offer);
    this.places.set(`${line} ${place}`, offer);
  }

  span([, holds, , line, place, , name, slot, fresh, until, why, , endLine, , end]) {
    const times = { fresh: Number(fresh), until: Number(until) };
    const ending = why === undefined ? { end: null, endLine: null, why: null }
      : { end: Number(end), endLine: Number(endLine), why };
    const offer = this.places.get(`${line} ${place}`);
    this.key(name, slot).spans.push({ ...offer, holds, ...times, ...ending });
  }

  // An ask belongs to the key that answered it, or to the key of its type if none did.
  ask([, line, , moment, name, type, purpose, mode, ...reply]) {
    const answered = reply[0] === 'nxdomain' ? type.replace(/^\d+/, 'nx')
      : reply[0] === 'miss' && reply[1] ? `failed${type}` : type;
    const key = this.key(name, answered);
    const text = replyText(reply, type.split('/')[0]);
    const last = key.asks.at(-1);
    const beside = last?.moment === Number(moment) ? last.beside + 1 : 0;
    const at = { line: Number(line), moment: Number(moment), beside };
    key.asks.push({ ...at, purpose, mode, kind: reply[0], text });
  }
}

function bodyOf(words, slot) {
  if (words[0] === 'failure') return { kind: 'failure', rank: null, ttl: Number(words[1]), data: '' };
  const [kind, rank, ttl, owner, items] = words;
  const type = kind === 'set' ? slot.split('/')[0] : TYPE_OF_SOA;
  return { kind, rank: Number(rank), ttl: Number(ttl), owner, data: itemsText(type, items) };
}

// The text for a reply of a report.
function replyText([kind, ...rest], type) {
  if (kind === 'miss') return rest.length ? `miss, retry from ${rest[0]} on` : 'miss';
  const [left, owner, items] = rest;
  const of = kind === 'fresh' || kind === 'stale' ? type : TYPE_OF_SOA;
  return `${kind}, TTL ${left}: ${owner} ${typeName(of)} ${itemsText(of, items)}`;
}

// The words of each line of a text that begins with one of these words.
function linesOf(text, ...words) {
  return text.split('\n').map((line) => line.split(' ')).filter((it) => words.includes(it[0]));
}

// Sorts events by their lines of the trace, and those of a line by their places.
function inOrder([, line, place], [, otherLine, otherPlace]) {
  return line - otherLine || place - otherPlace;
}

// The histories come part by part, but a line of the trace may have events in several parts.
function livesOf(histories, spans) {
  const lives = new Lives();
  const events = linesOf(histories, 'offer', 'ask').sort(inOrder);
  for (const words of events) lives[words[0]](words);
  for (const words of linesOf(spans, 'span')) lives.span(words);
  return lives;
}

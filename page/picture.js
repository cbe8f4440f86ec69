// SPDX-License-Identifier: MIT
// The picture: a row for each key, time from left to right, a bar while the key holds an entry, and
// a circle for each ask. The picture is not proved.

const SVG = 'http://www.w3.org/2000/svg';
const ROW = 34;
const TOP_EDGE = 26;
// Keys are at the left: the width of a letter in pixels, and the most letters of a name.
const LETTER = 7.3;
const MOST_LETTERS = 36;
// Up to MOST_COLUMNS timestamps have a column each; more timestamps are drawn to scale. At most
// MOST_KEYS keys are drawn, with at most MOST_OF_A_KEY spans and asks each.
const MOST_COLUMNS = 300;
const MOST_KEYS = 100;
const MOST_OF_A_KEY = 50;
const COLUMN = 64;
const SCALED_WIDTH = 3000;
// What a key may hold: how it is called, and what it is before it is stale or expired.
const HELD = {
  set: { text: 'RRset', first: 'fresh' },
  nodata: { text: 'negative answer', first: 'negative' },
  nxdomain: { text: 'negative answer', first: 'negative' },
  failed: { text: 'failure', first: 'failed' },
};

function svg(tag, attributes, ...children) {
  const made = document.createElementNS(SVG, tag);
  for (const [name, value] of Object.entries(attributes)) made.setAttribute(name, value);
  made.append(...children);
  return made;
}

// The stretches of a span with their kinds, until the next entry or the last timestamp.
function stretches(span, last) {
  const end = span.end ?? Math.max(last, span.until);
  const bounds = [[span.moment, span.fresh, HELD[span.holds].first],
    [span.fresh, span.until, 'stale'], [span.until, end, 'expired']];
  return bounds.map(([from, to, kind]) => ({ from, to: Math.min(to, end), kind }))
    .filter((it) => it.to > it.from);
}

function spanText(span, key) {
  const rank = span.rank === null ? '' : ` of rank ${span.rank}`;
  const until = span.holds === 'set' ? `fresh before ${span.fresh}, stale before ${span.until}`
    : `valid before ${span.fresh}`;
  const ended = span.why ? ` ${span.why} at ${span.end} by line ${span.endLine}.` : '';
  const what = `${HELD[span.holds].text}${rank}`;
  return `${key.name} ${slotName(key.slot)}: ${what}, stored at ${span.moment} by line `
    + `${span.line}, TTL ${span.ttl}, ${until}.${ended} ${span.data}`.trimEnd();
}

function askText(ask, key) {
  return `Line ${ask.line} asks at ${ask.moment} for ${key.name} ${slotName(key.slot)}, purpose `
    + `${ask.purpose}, mode ${ask.mode}: ${ask.text}`;
}

function momentsOf(keys) {
  const all = new Set();
  for (const key of keys) {
    for (const it of key.asks) all.add(it.moment);
    for (const span of key.spans) {
      all.add(span.moment);
      for (const it of [span.fresh, span.until]) if (span.end === null || it < span.end) all.add(it);
      if (span.end !== null) all.add(span.end);
    }
  }
  return [...all].sort((one, other) => one - other);
}

// The horizontal position of each timestamp: in its own column, or to scale.
function axisOf(moments, left) {
  if (moments.length > MOST_COLUMNS) {
    const [first, last] = [moments[0], moments.at(-1)];
    const at = (it) => left + COLUMN / 2 + ((it - first) / (last - first)) * SCALED_WIDTH;
    return { at, marks: [first, last], width: left + SCALED_WIDTH + COLUMN, isScaled: true };
  }
  const places = new Map(moments.map((it, place) => [it, left + (place + 0.5) * COLUMN]));
  const width = left + moments.length * COLUMN;
  return { at: (it) => places.get(it), marks: moments, width, isScaled: false };
}

function gridOf(axis, height) {
  return axis.marks.flatMap((it) => [
    svg('text', { x: axis.at(it), y: 14, class: 'moment' }, String(it)),
    svg('line', { x1: axis.at(it), x2: axis.at(it), y1: TOP_EDGE - 6, y2: height, class: 'grid' }),
  ]);
}

// A part of the picture that can be pointed at and focused, with a description.
function item(kind, text, line, ...shapes) {
  return svg('g', { class: `item ${kind}`, role: 'img', tabindex: -1, 'aria-label': text,
    'data-line': line }, ...shapes);
}

function barOf({ from, to, kind }, axis, y) {
  const [x, width] = [axis.at(from), axis.at(to) - axis.at(from)];
  const bar = svg('rect', { x, y: y + 5, width, height: ROW - 12, class: kind });
  if (width < COLUMN * 0.9) return [bar];
  return [bar, svg('text', { x: x + width - 10, y: y + ROW / 2 + 3, class: 'kind' }, kind)];
}

function spanItem(span, key, axis, y, last) {
  const bars = stretches(span, last).flatMap((it) => barOf(it, axis, y));
  return item('span', spanText(span, key), span.line, ...bars);
}

// Asks of one key at one time are drawn side by side.
function askItem(ask, key, axis, y) {
  const kind = ask.kind === 'miss' ? 'miss' : 'answered';
  const cx = axis.at(ask.moment) + 13 * Math.min(ask.beside, 3);
  return item('ask', askText(ask, key), ask.line,
    svg('circle', { cx, cy: y + ROW / 2 - 1, r: 6, class: kind }));
}

// Shortens a name that is too long, in its middle.
function shortened(name) {
  return name.length <= MOST_LETTERS ? name : `${name.slice(0, 20)}…${name.slice(-15)}`;
}

function rowOf(key, axis, y, last) {
  const label = svg('text', { x: 0, y: y + 13, class: 'key' }, shortened(key.name));
  const slot = svg('text', { x: 0, y: y + 27, class: 'slot' }, slotName(key.slot));
  return [label, slot, ...key.spans.map((it) => spanItem(it, key, axis, y, last)),
    ...key.asks.map((it) => askItem(it, key, axis, y))];
}

// The keys with the spans and asks that are drawn, and the numbers of keys, spans and asks that are
// not drawn.
function drawn(lives) {
  const keys = [...lives.keys.values()];
  const front = keys.slice(0, MOST_KEYS).map((it) => ({
    ...it, spans: it.spans.slice(0, MOST_OF_A_KEY), asks: it.asks.slice(0, MOST_OF_A_KEY),
  }));
  const size = (some) => some.reduce((sum, it) => sum + it.spans.length + it.asks.length, 0);
  return { keys: front, keysLeft: keys.length - front.length, itemsLeft: size(keys) - size(front) };
}

// The picture of the contents of keys, and the numbers of what is left out.
function pictureOf(lives) {
  const { keys, ...left } = drawn(lives);
  const moments = momentsOf(keys);
  const letters = Math.max(12, ...keys.map((it) => shortened(it.name).length));
  const axis = axisOf(moments, LETTER * letters);
  const height = TOP_EDGE + keys.length * ROW;
  const rows = keys.flatMap((key, place) => rowOf(key, axis, TOP_EDGE + place * ROW, moments.at(-1)));
  const picture = svg('svg', { width: axis.width, height, viewBox: `0 0 ${axis.width} ${height}` },
    ...gridOf(axis, height), ...rows);
  return { picture, isScaled: axis.isScaled, ...left };
}

// SPDX-License-Identifier: MIT
// The page: its fields, its results, and its link.

const WAIT = 200; // milliseconds without a key pressed, until a trace is run
const MOST_AT_ONCE = 300000; // characters of a trace that is run while it is typed
const MOST_SHOWN = 2000; // lines of the report, and rows of the table, that are shown
const MOST_IN_LINK = 30000; // characters of a link
const HINT = 'Point at a bar or a circle to see a description here, or use Tab and the arrow keys. '
  + 'A click or Enter goes to its line of the trace.';
const TOLD = ['report', 'histories', 'spans']; // the texts that the module returns for a trace
const USUAL = { parts: 1, capacity: 1024, chapter: 4096, stale: 86400 };

const element = (id) => document.getElementById(id);
const examples = JSON.parse(element('examples').textContent);
let proved = null; // the module

function asked() {
  return Object.fromEntries(OPTIONS.map((it) => [it, Number(element(it).value)]));
}

function fill(trace, options) {
  element('trace').value = trace;
  for (const it of OPTIONS) element(it).value = options[it] ?? USUAL[it];
}

// The first option that is not a number in its range, if there is one.
function badOption() {
  return OPTIONS.find((it) => element(it).value === '' || !element(it).checkValidity());
}

function showFault(text, line) {
  element('fault').hidden = text === null;
  element('fault-text').textContent = text ?? '';
  element('go').hidden = line === null;
  element('go').dataset.line = line ?? '';
  element('trace').setAttribute('aria-invalid', text !== null);
  element('results').hidden = text !== null;
}

function showReport(text) {
  const lines = text.split('\n');
  const left = lines.length - 1 - MOST_SHOWN;
  element('report').textContent = left > 0 ? lines.slice(0, MOST_SHOWN).join('\n') : text;
  element('left').textContent = left > 0 ? `and ${left} more lines, which are in the file` : '';
  URL.revokeObjectURL(element('save').href);
  element('save').href = URL.createObjectURL(new Blob([text], { type: 'text/plain' }));
}

function cell(text, name = 'td') {
  const made = document.createElement(name);
  made.textContent = text;
  return made;
}

function offerRow({ line, moment, key, kind, rank, ttl, data, outcome }) {
  const row = document.createElement('tr');
  const what = kind === 'set' ? data : kind === 'negative' ? `none; SOA ${data}` : 'failure';
  row.append(...[line, moment, key.name, slotName(key.slot), rank ?? '', ttl, what,
    OUTCOMES[outcome]].map((it) => cell(it)));
  return row;
}

function showOffers(offers) {
  const left = offers.length - MOST_SHOWN;
  element('offers').replaceChildren(...offers.slice(0, MOST_SHOWN).map(offerRow));
  element('offers-left').textContent = left > 0 ? `and ${left} more offers` : '';
}

function showPicture(lives) {
  const { picture, isScaled, keysLeft, itemsLeft } = pictureOf(lives);
  element('picture').replaceChildren(picture);
  element('told').textContent = HINT;
  element('scale').textContent = [
    isScaled ? 'Time is to scale.' : 'Each timestamp has a column, and distances are not to scale.',
    keysLeft ? `${keysLeft} more keys are not drawn.` : '',
    itemsLeft ? `${itemsLeft} more spans and asks are not drawn.` : '',
  ].join(' ');
  picture.querySelector('.item')?.setAttribute('tabindex', 0);
}

const textOf = (octets) => new TextDecoder().decode(octets);

// Replays the trace, and shows the results of the module.
function run() {
  const bad = badOption();
  if (bad) return showFault(`${bad} is out of range`, null);
  const octets = new TextEncoder().encode(element('trace').value);
  const texts = {};
  for (const it of TOLD) {
    const told = ask(proved, `rrc_page_${it}`, octets, asked());
    if (told.fault) return showFault(told.fault, told.line);
    texts[it] = textOf(told.octets);
  }
  showFault(null, null);
  showReport(texts.report);
  const lives = livesOf(texts.histories, texts.spans);
  showOffers(lives.offers);
  return showPicture(lives);
}

// ---- the trace and its lines

function showNumbers() {
  const count = element('trace').value.split('\n').length;
  const numbers = element('numbers');
  if (Number(numbers.dataset.count) === count) return;
  numbers.dataset.count = count;
  numbers.textContent = Array.from({ length: count }, (_, it) => it).join('\n');
}

function goTo(line) {
  const trace = element('trace');
  const before = trace.value.split('\n').slice(0, line);
  const start = before.reduce((sum, it) => sum + it.length + 1, 0);
  const end = trace.value.indexOf('\n', start);
  trace.focus();
  trace.setSelectionRange(start, end < 0 ? trace.value.length : end);
  trace.scrollTop = line * parseFloat(getComputedStyle(trace).lineHeight) - trace.clientHeight / 2;
}

let waiting = null;
function changed() {
  const isLong = element('trace').value.length > MOST_AT_ONCE;
  showNumbers();
  element('status').textContent = isLong ? 'The trace is long: press Run to replay it.' : '';
  clearTimeout(waiting);
  if (!isLong) waiting = setTimeout(run, WAIT);
}

// ---- the examples, and the link

// Shows a trace, with the description of the example, or as a trace from a link.
function show(trace, options) {
  const place = examples.findIndex((it) => it.trace === trace);
  fill(trace, options);
  element('about').textContent = examples[place]?.about ?? 'A trace from a link.';
  element('example').value = place;
  showNumbers();
  run();
}

function showExample(place) {
  show(examples[place].trace, examples[place].options);
}

function linkOf() {
  const words = new URLSearchParams({ ...asked(), trace: element('trace').value });
  return `${location.href.split('#')[0]}#${words}`;
}

async function copyLink() {
  const link = linkOf();
  if (link.length > MOST_IN_LINK) {
    element('status').textContent = 'The trace is too long for a link.';
    return;
  }
  location.replace(link);
  try {
    await navigator.clipboard.writeText(link);
    element('status').textContent = 'The link is in the clipboard.';
  } catch {
    element('status').textContent = 'The link is in the address bar.';
  }
}

// Whether a link has the trace and options that the page shows, as a copied link has.
function isShown(words) {
  return [...OPTIONS, 'trace'].every((it) => words.get(it) === element(it).value);
}

// Shows the trace of the link, and returns whether the link has one.
function openLink() {
  const words = new URLSearchParams(location.hash.slice(1));
  if (!words.has('trace')) return false;
  if (!isShown(words)) show(words.get('trace'), Object.fromEntries(words));
  return true;
}

// ---- the picture, by pointer and by keyboard

function tell(event) {
  const found = event.target.closest('.item');
  if (found) element('told').textContent = found.getAttribute('aria-label');
}

const STEPS = { ArrowRight: 1, ArrowDown: 1, ArrowLeft: -1, ArrowUp: -1 };

function move(event) {
  const found = event.target.closest('.item');
  if (!found) return;
  if (event.key === 'Enter') goTo(Number(found.dataset.line));
  if (!STEPS[event.key]) return;
  event.preventDefault();
  const all = [...element('picture').querySelectorAll('.item')];
  const next = all[all.indexOf(found) + STEPS[event.key]] ?? found;
  found.setAttribute('tabindex', -1);
  next.setAttribute('tabindex', 0);
  next.focus();
}

function pick(event) {
  const found = event.target.closest('.item');
  if (found) goTo(Number(found.dataset.line));
}

// ---- the beginning

function listen() {
  element('trace').addEventListener('input', changed);
  element('trace').addEventListener('scroll', () => {
    element('numbers').scrollTop = element('trace').scrollTop;
  });
  for (const it of OPTIONS) element(it).addEventListener('input', changed);
  element('example').addEventListener('change', (it) => showExample(Number(it.target.value)));
  element('run').addEventListener('click', run);
  element('link').addEventListener('click', copyLink);
  element('go').addEventListener('click', (it) => goTo(Number(it.target.dataset.line)));
  const picture = element('picture');
  for (const it of ['pointerover', 'focusin']) picture.addEventListener(it, tell);
  picture.addEventListener('keydown', move);
  picture.addEventListener('click', pick);
  window.addEventListener('hashchange', openLink);
}

function begin() {
  element('example').append(...examples.map(({ title }, place) => new Option(title, place)));
  try {
    proved = moduleOf(element('module').textContent);
    new Instance(proved, FIRST_PAGES);
  } catch (refused) {
    showFault(`This browser can't run 64-bit WebAssembly: ${refused.message}`, null);
    return;
  }
  listen();
  if (!openLink()) showExample(0);
}

begin();

// SPDX-License-Identifier: MIT
// Calls of the module with the proved code. Each call has its own instance and its own memory, so
// no call affects the next one, even if it runs out of memory.

const PAGE_OCTETS = 65536;
// What the memory begins with, as bin/build-page links the module, and to what it may grow: 4 GiB.
const FIRST_PAGES = 64;
const MOST_PAGES = 65536;
// The statuses of the calls that are not numbers of faults.
const DONE = 0;
const SMALL_BUFFER = 10;
const BAD_OPTIONS = 11;
// The messages of the program for each number of a fault; N stands for the line.
const FAULTS = {
  1: 'line N is not a line of a trace',
  2: 'the trace has more than 1000000 lines',
  3: 'the trace could not be read',
  5: 'the worker strayed from the trace',
  6: 'out of memory',
  7: 'line N met a part whose numbers are spent',
  8: 'line N asks one question too many',
};
const OF_LINES = [1, 7, 8];
const OPTIONS = ['parts', 'capacity', 'chapter', 'stale'];

function moduleOf(packed) {
  return new WebAssembly.Module(Uint8Array.from(atob(packed), (it) => it.charCodeAt(0)));
}

// An instance of the module: its exports, and views of its memory.
class Instance {
  constructor(module, mostPages) {
    this.memory = new WebAssembly.Memory({
      address: 'i64', initial: BigInt(FIRST_PAGES), maximum: BigInt(mostPages),
    });
    const imports = { env: { memory: this.memory } };
    this.exports = new WebAssembly.Instance(module, imports).exports;
  }

  // Returns room for octets, or null. Views are made again after each call, because older views
  // become empty when the memory grows.
  room(size) {
    const at = this.exports.page_room(BigInt(size));
    return at === 0n ? null : at;
  }

  octets(at, size) {
    return new Uint8Array(this.memory.buffer, Number(at), size);
  }

  numbers(at, count) {
    return new BigUint64Array(this.memory.buffer, Number(at), count);
  }
}

function faultOf(number, line) {
  const text = (FAULTS[number] ?? `fault ${number}`).replace('N', line);
  return { fault: text, line: OF_LINES.includes(number) ? line : null };
}

// Calls an export that writes a text to a buffer.
function called(instance, name, octets, options, size) {
  const at = ['trace', 'options', 'buffer', 'told'].map((it) => instance.room(
    { trace: octets.length, options: 8 * OPTIONS.length, buffer: size, told: 16 }[it]));
  if (at.includes(null)) return faultOf(6, 0);
  const [trace, asked, buffer, told] = at;
  instance.octets(trace, octets.length).set(octets);
  instance.numbers(asked, OPTIONS.length).set(OPTIONS.map((it) => BigInt(options[it])));
  const status = instance.exports[name](
    trace, BigInt(octets.length), asked, buffer, BigInt(size), told);
  const [length, line] = [...instance.numbers(told, 2)].map(Number);
  if (status === DONE) return { octets: instance.octets(buffer, length).slice() };
  if (status === SMALL_BUFFER) return { wanted: length };
  if (status === BAD_OPTIONS) return { fault: 'an option is out of range', line: null };
  return faultOf(status, line);
}

// Returns the octets of a text that the module makes from a trace, or the fault with its line. If the
// memory or the stack is used up, the browser stops the module.
function ask(module, name, octets, options, mostPages = MOST_PAGES) {
  const size = Math.min(4 * octets.length + PAGE_OCTETS, (mostPages / 2) * PAGE_OCTETS);
  try {
    const first = called(new Instance(module, mostPages), name, octets, options, size);
    if (first.wanted === undefined) return first;
    return called(new Instance(module, mostPages), name, octets, options, first.wanted);
  } catch (stopped) {
    return { fault: `the browser stopped the module: ${stopped.message}`, line: null };
  }
}

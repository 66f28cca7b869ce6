'use strict';
// Prints what calls.c prints, over zsched.wasm: `node calls.js zsched.wasm`; with `32` after it, over one whose calls take
// pointers of 32 bits. A trap ends it with 3.
const UNTOUCHED = 77n;
const [WORDS, STATE_WORDS] = [4004n, 4005n];
// Where each block begins in the room.
const [PROGRAM, STATE, OTHER, SMALL, DRIVER, BOUNDS, TURN, OUT, TEXT] = [0, 32768, 65536, 98304, 98400, 98464, 98544, 98600,
  102696];
const ROOM = 1 << 20;

/** The calls of a library, and the room that they read and write. */
class Library {
  constructor(wasm, pointer) {
    this.it = new WebAssembly.Instance(new WebAssembly.Module(wasm)).exports;
    this.pointer = pointer;
  }

  begin() {
    this.base = Number(this.it.zs_room(BigInt(ROOM)));
    if (!this.base) {
      throw new Error('no room');
    }
    this.look();
  }

  /** Looks at the memory again, which may have grown. */
  look() {
    [this.view, this.bytes] = [new DataView(this.it.memory.buffer), new Uint8Array(this.it.memory.buffer)];
  }

  at(place) {
    return this.pointer(this.base + place);
  }

  get(place) {
    return this.view.getBigUint64(this.base + place, true);
  }

  put(place, ...numbers) {
    numbers.forEach((number, at) => this.view.setBigUint64(this.base + place + 8 * at, BigInt(number), true));
  }

  call(name, ...words) {
    const found = this.it[name](...words);
    this.look();
    return BigInt.asUintN(typeof found === 'bigint' ? 64 : 32, BigInt(found));
  }

  ascii(place, size) {
    return String.fromCharCode(...this.bytes.subarray(this.base + place, this.base + place + size));
  }

  /** A hash of words, and of one more than a program or a state has, FNV-1a. */
  hash(place, words) {
    let [high, low] = [0xcbf29ce4, 0x84222325];
    const begin = this.base + place;
    for (const byte of this.bytes.subarray(begin, begin + 8 * (words < WORDS ? words + 1 : words))) {
      low ^= byte;
      const [a, b] = [(low & 0xffff) * 0x1b3, (low >>> 16) * 0x1b3];
      const middle = b + Math.floor(a / 65536);
      high = (Math.imul(high, 0x1b3) + Math.imul(low, 0x100) + Math.floor(middle / 65536)) >>> 0;
      low = ((middle & 0xffff) * 65536 + (a & 0xffff)) >>> 0;
    }
    return [high, low].map((half) => half.toString(16).padStart(8, '0')).join('');
  }
}

/** Returns what the calls over a text give. */
function ofText(of, spelled, number) {
  of.put(SMALL, UNTOUCHED, UNTOUCHED, UNTOUCHED);
  const status = of.call('zs_check', ...spelled, of.at(SMALL));
  const size = Number(of.call('zs_strerror', Number(status), of.get(SMALL), of.at(OUT), 4096n));
  const said = [status, of.get(SMALL), size, of.ascii(OUT, size)];
  of.put(DRIVER, 64n, ...Array.from({ length: 7 }, number));
  of.put(BOUNDS, 80n, ...Array(9).fill(0n));
  of.put(SMALL, UNTOUCHED);
  said.push(of.call('zs_bounds', ...spelled, of.at(DRIVER), number(), of.at(BOUNDS), of.at(SMALL)), of.get(SMALL));
  for (let place = 1; place < 10; place += 1) {
    said.push(of.get(BOUNDS + 8 * place));
  }
  said.push(of.call('zs_program_size', ...spelled, of.at(SMALL + 8), of.at(SMALL + 16), of.at(SMALL)));
  return [...said, of.get(SMALL + 8), of.get(SMALL + 16), of.get(SMALL)];
}

/** Returns what the calls over a turn give. */
function ofTurn(of, number) {
  const program = [of.at(PROGRAM), WORDS];
  const [state, other] = [STATE, OTHER].map((place) => [of.at(place), STATE_WORDS]);
  of.put(TURN, 56n, ...Array.from({ length: 5 }, number));
  [48, 52].forEach((place) => of.view.setUint32(of.base + TURN + place, Number(number()), true));
  of.put(SMALL, UNTOUCHED, UNTOUCHED, UNTOUCHED);
  const said = [of.call('zs_plan', ...program, ...state, of.at(TURN), of.at(SMALL)), of.get(SMALL)];
  said.push(of.call('zs_program_step', ...program, ...other, of.get(TURN + 16) / 1000000n, of.get(TURN + 24),
    of.at(SMALL + 8), of.at(SMALL + 16)), of.get(SMALL + 8), of.get(SMALL + 16));
  of.bytes.fill(0, of.base + OUT, of.base + TEXT);
  of.put(SMALL, UNTOUCHED);
  said.push(of.call('zs_output', ...program, ...state, of.at(OUT), 4096n, of.at(SMALL)), of.get(SMALL));
  return [...said, `${of.ascii(OUT, of.bytes.indexOf(0, of.base + OUT) - of.base - OUT)};`];
}

/** Returns the line of a case. */
function lineOf(of, line) {
  const [text, ...given] = line.split(' ');
  const raw = text.slice(1).match(/../g) ?? [];
  let next = 0;
  const number = () => BigInt(given[next++]);
  of.begin();
  of.bytes.set(raw.map((pair) => parseInt(pair, 16)), of.base + TEXT);
  const spelled = [of.at(TEXT), BigInt(raw.length)];
  const said = ofText(of, spelled, number);
  const [words, stateWords] = said.slice(-3).map(Number);
  of.bytes.fill(0, of.base, of.base + OTHER);
  said.push(of.call('zs_compile', ...spelled, of.at(PROGRAM), WORDS, of.at(SMALL)), of.get(SMALL), of.hash(PROGRAM, words));
  said.push(of.call('zs_program_begin', of.at(PROGRAM), WORDS, of.at(STATE), STATE_WORDS));
  of.bytes.copyWithin(of.base + OTHER, of.base + STATE, of.base + OTHER);
  for (let turns = number(); turns; turns -= 1n) {
    said.push(...ofTurn(of, number));
  }
  return [...said, of.hash(STATE, stateWords), of.hash(OTHER, stateWords)].join(' ');
}

const { readFileSync } = require('node:fs');
const library = new Library(readFileSync(process.argv[2]), process.argv[3] === '32' ? Number : BigInt);
try {
  const lines = readFileSync(0, 'latin1').split('\n').filter(Boolean).map((line) => lineOf(library, line));
  console.log([library.it.zs_version() >>> 0, ...lines].join('\n'));
} catch (trap) {
  if (!(trap instanceof WebAssembly.RuntimeError)) {
    throw trap;
  }
  console.error(trap.message);
  process.exitCode = 3;
}

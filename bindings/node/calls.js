'use strict';
// The calls of zsched.c: of the built addon, or where there is none for a machine, of zsched.wasm, which is the proved
// module, compiled further.
const NO_MEMORY = 5;
const LEAST = 16;

/** Returns the calls over the bytes of zsched.wasm. */
function callsOf(wasm) {
  const it = new WebAssembly.Instance(new WebAssembly.Module(wasm)).exports;

  /** Returns the result of a call that gets places in the module's memory, from and to which these arrays are copied. */
  function over(arrays, call) {
    const sizes = arrays.map((array) => Math.ceil(array.byteLength / LEAST) * LEAST);
    let place = Number(it.zs_room(BigInt(sizes.reduce((sum, size) => sum + size, LEAST))));
    if (place === 0) {
      return NO_MEMORY;
    }
    const bytesOf = (array) => new Uint8Array(array.buffer, array.byteOffset, array.byteLength);
    const places = sizes.map((size) => (place += size) - size);
    arrays.forEach((array, at) => new Uint8Array(it.memory.buffer).set(bytesOf(array), places[at]));
    const found = call(...places.map(BigInt));
    arrays.forEach((array, at) => bytesOf(array).set(new Uint8Array(it.memory.buffer, places[at], array.byteLength)));
    return Number(found) >>> 0;
  }

  const sized = (size, words) => BigUint64Array.of(size, ...words);
  const lengths = (...arrays) => arrays.map((array) => BigInt(array.length));

  return {
    bounds(text, driver, steps, found, at) {
      const [does, run, [size]] = [sized(64n, driver), sized(80n, found), lengths(text)];
      const number = over([text, does, run, at], (a, b, c, d) => it.zs_bounds(a, size, b, steps, c, d));
      found.set(run.subarray(1));
      return number;
    },
    compile(text, program, state, sizes, at) {
      const [size, most, stateMost] = lengths(text, program, state);
      return over([text, program, state, sizes, at], (a, b, c, d, e) =>
        it.zs_program_size(a, size, d, d + 8n, e) || it.zs_compile(a, size, b, most, e)
          || it.zs_program_begin(b, most, c, stateMost));
    },
    step(program, state, moment, input, next) {
      const [size, stateSize] = lengths(program, state);
      return over([program, state, next, new BigUint64Array(1)], (a, b, c, d) =>
        it.zs_program_step(a, size, b, stateSize, moment, input, c, d));
    },
    plan(program, state, turn, begin) {
      const [made, [size, stateSize]] = [sized(56n, turn.subarray(0, 6)), lengths(program, state)];
      made[6] = turn[5] | turn[6] << 32n;
      return over([program, state, made, begin], (a, b, c, d) => it.zs_plan(a, size, b, stateSize, c, d));
    },
    output(program, state, out, size) {
      const [words, stateWords, most] = lengths(program, state, out);
      return over([program, state, out, size], (a, b, c, d) => it.zs_output(a, words, b, stateWords, c, most, d));
    },
    strerror: (number, at, out) => over([out], (a) => it.zs_strerror(Number(number), at, a, BigInt(out.length))),
    version: () => it.zs_version() >>> 0,
  };
}

/**
 * Returns the calls of the addon or the module in a file; without one, those of the package's addon for this machine, or
 * of its module.
 */
function load(named) {
  const { existsSync, readFileSync } = require('node:fs');
  const addon = `${__dirname}/${process.arch === 'arm64' ? 'aarch64/' : ''}zsched.node`;
  const module = `${__dirname}/zsched.wasm`;
  try {
    return named?.endsWith('.wasm') ? callsOf(readFileSync(named)) : require(named || addon);
  } catch (cause) {
    if (!named && existsSync(module)) {
      return callsOf(readFileSync(module));
    }
    const here = `${process.platform} on ${process.arch}`;
    throw new Error(`zsched: ${named || addon} can't be loaded on ${here}. The package has it for Linux on x64 and arm64 `
      + 'with glibc, and zsched.wasm for all; build one by bindings/node/build or build/make-library of the sources, and '
      + 'name it in ZSCHED_NODE', { cause });
  }
}

module.exports = { callsOf, load };

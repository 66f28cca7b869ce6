'use strict';
// Compares the scripts of docs/play.html with the proved module in WebAssembly: `node page_beside.js play.html calls.js
// zsched.wasm` reads cases (tests/all_calls.py), and prints as JSON how many there are, of how many the numbers were compared
// and what differs. A browser's page calls `beside`.
const MOST_TIME = 10n ** 17n;
const LATE = 2n ** 64n - 1n;
const MOST_STEPS = 40;

/** Returns what the library says of a text: its fault, or its bounds for a driver and its steps after attempts. */
function ofLibrary(calls, text, [least, hasMost, most, low, high, asked, late], steps, attempts) {
  const [raw, at, found] = [new TextEncoder().encode(text), new BigUint64Array(1), new BigUint64Array(9)];
  const fault = (number) => {
    const out = new Uint8Array(80);
    return String.fromCharCode(...out.subarray(0, calls.strerror(BigInt(number), at[0], out)));
  };
  const driver = BigUint64Array.of(least, hasMost, most, low, high, asked, late);
  const number = calls.bounds(raw, driver, steps, found, at);
  if (number) {
    return { fault: fault(number) };
  }
  const [seen, first, isEnd, last, longest, hasTotal, total, hasRun, run] = found;
  const bounds = [seen, first, isEnd ? last : null, longest, hasTotal ? total : null, hasRun ? run : null];
  const [program, state, sizes] = [new BigUint64Array(4004), new BigUint64Array(4005), new BigUint64Array(2)];
  if (calls.compile(raw, program, state, sizes, at)) {
    return { bounds, steps: null };
  }
  const words = [program.slice(0, Number(sizes[0])), state.slice(0, Number(sizes[1]))];
  const lines = [];
  let begin = 0n;
  for (const [ms, value] of attempts) {
    const [next, size, out] = [new BigUint64Array(1), new BigUint64Array(1), new Uint8Array(65536)];
    const end = begin + ms > LATE ? LATE : begin + ms;
    const isDone = calls.step(...words, end, value, next);
    calls.output(...words, out, size);
    const said = String.fromCharCode(...out.subarray(0, Number(size[0])));
    lines.push(`step ${lines.length + 1} out ${said} ${isDone ? 'done' : `next ${next[0]}`}`);
    begin = next[0] > end ? next[0] : end;
    if (isDone || begin > MOST_TIME) {
      break;
    }
  }
  return { bounds, steps: lines };
}

/** Returns the same of the page. */
function ofPage({ zsched, bounding }, text, [least, hasMost, most, low, high, asked, late], steps, attempts, isFlat) {
  try {
    zsched.readSchedule(text);
  } catch (fault) {
    return { fault: fault.message };
  }
  const driver = { attempt: [least, hasMost ? most : null], waits: [low, high, late === LATE ? null : late, asked] };
  const { seen, least: first, most: last, longest, total, run } = bounding.boundsOf(text, Number(steps), driver);
  // The page counts whole milliseconds, and a run of the library ends before its number.
  const end = run === null || run === LATE ? run : run + 1n;
  const bounds = [seen, first, last, longest, total, end].map((it) => (it === null ? null : BigInt(it)));
  if (!isFlat) {
    return { bounds, steps: null };
  }
  const lines = [];
  const entry = (number) => {
    const [ms, value] = attempts[number - 1] ?? [MOST_TIME * 2n, 0n];
    return { ms, how: 'err', value };
  };
  zsched.follow({ mode: 'retry', schedule: zsched.readSchedule(text), start: 0n }, zsched.clockOf(null, MOST_TIME), MOST_TIME,
    entry, lines, MOST_STEPS + 2);
  return { bounds, steps: lines.filter((line) => line.startsWith('step')) };
}

/** Returns the numbers of cases, of faults and of steps, and what differs. */
function beside(calls, page, lines) {
  const said = { cases: 0, faults: 0, steps: 0, differ: [] };
  for (const line of lines) {
    const [given, ...words] = line.split(' ');
    const raw = Uint8Array.from(given.slice(1).match(/../g) ?? [], (pair) => parseInt(pair, 16));
    let text;
    try {
      text = new TextDecoder('utf-8', { fatal: true, ignoreBOM: true }).decode(raw);
    } catch {
      continue;
    }
    const numbers = words.map(BigInt);
    const [driver, steps, turns] = [numbers.slice(0, 7), numbers[7] || 1n, numbers.slice(9)];
    // Those that some driver does.
    driver[0] ||= 1n;
    driver[2] = driver[2] < driver[0] ? driver[0] : driver[2];
    driver[4] = driver[4] < driver[3] ? driver[3] : driver[4];
    const attempts = [];
    for (let at = 0; at < turns.length && attempts.length < MOST_STEPS; at += 7) {
      attempts.push([turns[at + 3] % 100000n, turns[at + 2]]);
    }
    const library = ofLibrary(calls, text, driver, steps, attempts);
    const found = ofPage(page, text, driver, steps, attempts, library.steps !== null);
    const [one, other] = [library, found].map((it) => JSON.stringify(it, (_, value) =>
      (typeof value === 'bigint' ? String(value) : value)));
    said.cases += 1;
    said.faults += Boolean(library.fault);
    said.steps += library.steps?.length ?? 0;
    if (one !== other && said.differ.length < 5) {
      said.differ.push([text, one, other]);
    }
  }
  return said;
}

if (typeof process !== 'undefined') {
  const [{ readFileSync }, vm, path] = [require('node:fs'), require('node:vm'), require('node:path')];
  const page = readFileSync(process.argv[2], 'utf8');
  for (const name of ['evaluator', 'drawing', 'proved', 'proving', 'bounding']) {
    vm.runInThisContext(new RegExp(` id="${name}">\n(.*?)<\\/script>`, 's').exec(page)[1], { filename: name });
  }
  const { callsOf } = require(path.resolve(process.argv[3]));
  const lines = readFileSync(0, 'latin1').split('\n').filter(Boolean);
  const [zsched, bounding] = ['zsched', 'bounding'].map((name) => vm.runInThisContext(name));
  console.log(JSON.stringify(beside(callsOf(readFileSync(process.argv[4])), { zsched, bounding }, lines)));
}

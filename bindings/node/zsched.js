'use strict';
// Retries by the proved schedules of zsched; zsched.d.ts says what each call does.
//
// A Retry sleeps; a Schedule doesn't. When attempts begin is proved, the sleeping is not. Times are in
// milliseconds, as numbers: Infinity above 2^53 - 1.
const { setMaxListeners } = require('node:events');
const { isGeneratorObject } = require('node:util').types;

const calls = require('./calls.js').load(process.env.ZSCHED_NODE);

const DEFAULT = '(exponential(100) && recurs(5))';
const DONE = 1;
const [NOT_UTF8, KEEPS_LIST, OTHER_STATE, NO_TERM, BAD_NUMBER, BAD_WINDOW] = [4, 6, 9, 11, 13, 16];
const OTHER_VERSION = 18;
const TEXT_MOST = 80;
// Where programs and states are written first: no other has more words.
const [PROGRAM, STATE] = [new BigUint64Array(4004), new BigUint64Array(4005)];
const WORD_MOST = 2n ** 64n - 1n;
const DRAWS = 2 ** 32;
const LONGEST = 2 ** 31 - 1;
const HOUR = 3600000;
// How often a sleep that returned early is repeated.
const EARLY_MOST = 100;
// The words of a schedule's text, in the order of their description.
const WORDS = `forever recurs spaced fixed exponential fibonacci identity elapsed linear windowed andThenEither
  whileInput whileOutput collectAll map resetWhen size merge as`.split(/\s+/);
const OPTIONS = ['name', 'inputOf', 'shouldRetry', 'retryAfter', 'retryAfterMost', 'attemptMost', 'deadline', 'jitter',
  'budget', 'onEvent', 'clock'];
// The three forms of a date in HTTP.
const DATES = [/^\w{3}, \d\d \w{3} \d{4} [\d:]{8} GMT$/, /^\w{6,9}, \d\d-\w{3}-\d\d [\d:]{8} GMT$/,
  /^\w{3} \w{3} [\d ]\d [\d:]{8} \d{4}$/];
// Mocks of a test may replace it.
const turn = setImmediate;

/** Returns how many letters have to be put in, taken out or changed between two words. */
function editsOf(one, other) {
  let row = Array.from({ length: other.length + 1 }, (_, place) => place);
  for (const letter of one) {
    const next = [row[0] + 1];
    for (let j = 0; j < other.length; j += 1) {
      next.push(Math.min(row[j] + (letter !== other[j]), row[j + 1] + 1, next[j] + 1));
    }
    row = next;
  }
  return row[other.length];
}

/** Returns what to write in place of what begins at a byte of a text, or nothing. */
function hintOf(text, at) {
  const [before, rest] = [text.slice(0, at), text.slice(at)];
  const operator = ['&&', '||', 'andThenEither'].find((it) => rest.startsWith(it));
  if (operator && before.split('(').length === before.split(')').length) {
    return `: "${operator}" stands in parentheses: (A ${operator} B)`;
  }
  if (!rest) {
    return ': the text ends too early';
  }
  if (/\d$/.test(before) && /^\.\d/.test(rest)) {
    return ': whole milliseconds, without a point';
  }
  const [word] = rest.match(/^[A-Za-z]*/);
  const near = WORDS.map((it) => editsOf(word, it));
  const fewest = Math.min(...near);
  return word && fewest > 0 && fewest < 3 ? `: did you mean "${WORDS[near.indexOf(fewest)]}"?` : '';
}

/** Returns the library's words with a hint, and the lines that show a wrong text. */
function linesOf(said, number, text, at) {
  if (number !== NOT_UTF8 && number !== KEEPS_LIST && !(number >= NO_TERM && number <= BAD_WINDOW)) {
    return said;
  }
  const from = Math.max(0, Math.min(at - TEXT_MOST / 2, text.length - TEXT_MOST));
  const shown = text.slice(from, from + TEXT_MOST).replace(/[^ -~]/g, '?');
  const mark = [NOT_UTF8, NO_TERM, BAD_NUMBER].includes(number) ? `\n${' '.repeat(at - from)}^` : '';
  return `${said}${number === NO_TERM ? hintOf(text, at) : ''}\n${shown}${mark}`;
}

/**
 * The error of a call. The number and the place are those of zsched.h, and the message has the library's
 * words. For a wrong text a hint, the text and a mark below its byte follow.
 */
class Fault extends Error {
  constructor(number, at, text) {
    const out = Buffer.alloc(TEXT_MOST);
    const size = calls.strerror(BigInt(number), at, out);
    super(linesOf(out.toString('latin1', 0, size), number, text.toString('latin1'), Number(at)));
    this.name = 'Fault';
    this.number = number;
    this.at = Number(at);
    this.text = text.toString();
  }
}

/**
 * The error of a retry whose signal was aborted, as Node's own: `cause` is the signal's reason.
 * `lastError` is the error of the last attempt, or undefined if there was none.
 */
class Aborted extends Error {
  constructor(reason, lastError) {
    super('The operation was aborted', { cause: reason });
    this.name = 'AbortError';
    this.code = 'ABORT_ERR';
    this.lastError = lastError;
  }
}

/**
 * Tokens that many calls share, as in gRPC's retry throttling: a failed attempt takes one, one that
 * doesn't fail adds the ratio, and a retry follows only while more than half of them are there.
 */
class Budget {
  #most;
  #ratio;
  #tokens;

  constructor(tokens = 10, ratio = 0.1) {
    if (!(Number.isFinite(tokens) && tokens >= 0 && Number.isFinite(ratio) && ratio >= 0)) {
      throw new RangeError(`zsched: a budget of ${tokens} tokens and the ratio ${ratio}`);
    }
    this.#most = tokens;
    this.#ratio = ratio;
    this.#tokens = tokens;
  }

  get tokens() {
    return this.#tokens;
  }

  /** Adds the ratio after an attempt that didn't fail. */
  add() {
    this.#tokens = Math.min(this.#most, this.#tokens + this.#ratio);
  }

  /** Takes a token after a failed attempt. Returns whether a retry may follow. */
  take() {
    this.#tokens = Math.max(0, this.#tokens - 1);
    return this.#tokens > this.#most / 2;
  }
}

/** What a schedule does for every input. What has no bound is Infinity. */
class Bounds {
  constructor(found) {
    const [seen, least, hasMost, most, longest, hasTotal, total, hasRun, run] = Array.from(found, numberOf);
    Object.assign(this, { seen, least, most: hasMost ? most : Infinity, longest, total: hasTotal ? total : Infinity });
    this.longestRun = hasRun ? run : Infinity;
  }

  /** Whether there are at most `most` attempts, and `total` ms of waits together. */
  within(most, total) {
    return this.most <= most && this.total <= total;
  }

  /** Whether each call ends within `run` ms, attempts and waits together. */
  endsWithin(run) {
    return this.longestRun < Infinity && this.longestRun <= run;
  }
}

/** Throws the Fault that a number represents, if it is one. */
function throwFault(number, at = 0n, text = '') {
  if (number > DONE) {
    throw new Fault(number, at, text);
  }
}

/** Returns a number of the library: Infinity above 2^53 - 1. */
function numberOf(word) {
  return word > Number.MAX_SAFE_INTEGER ? Infinity : Number(word);
}

/** Throws a RangeError if a number isn't from 0 to another. */
function checkRange(name, number, most) {
  if (!(number >= 0 && number <= most)) {
    throw new RangeError(`zsched: the ${name} ${number} is not from 0 to ${most}`);
  }
}

/** Returns a whole number as a BigInt. Throws a TypeError for anything else, and a RangeError above `most`. */
function whole(name, number, most = WORD_MOST) {
  if (typeof number !== 'bigint' && !Number.isInteger(number)) {
    throw new TypeError(`zsched: the ${name} is ${String(number)}, which is no whole number`);
  }
  checkRange(name, number, most);
  return BigInt(number);
}

/** Returns a time as whole milliseconds, rounded up: 0 if it is negative, and at most 2^64 - 1. */
function time(name, number) {
  const up = typeof number === 'number' ? Math.ceil(number) : number;
  return up < 0 ? 0n : up > WORD_MOST ? WORD_MOST : whole(name, up);
}

/** Returns a time in nanoseconds: 0 if it is negative, and at most 2^64 - 1. */
function nanoseconds(name, millis) {
  if (typeof millis !== 'number' || Number.isNaN(millis)) {
    throw new TypeError(`zsched: the ${name} is ${String(millis)}, which is no number`);
  }
  if (millis <= 0 || millis >= 2 ** 64 / 1e6) {
    return millis <= 0 ? 0n : WORD_MOST;
  }
  return BigInt(Math.floor(millis)) * 1000000n + BigInt(Math.round((millis % 1) * 1e6));
}

/** Returns the whole percent of a share from 0 to 1. */
function percentOf(jitter) {
  checkRange('jitter', jitter, 1);
  return BigInt(Math.round(100 * jitter));
}

/** Returns the Bounds of a schedule, of which at most the first `steps` attempts are examined. */
function bounds(schedule, steps = 1000, { attempt = [], jitter = 0, asked = 0, late = 0 } = {}) {
  const [least = 1, most = Infinity] = attempt;
  const text = Buffer.from(schedule instanceof Schedule ? schedule.text : schedule);
  const driver = [time('least', least < 1 ? least : Math.floor(least)), most === Infinity ? 0n : 1n];
  driver.push(most === Infinity ? 0n : time('most', most), 100n - percentOf(jitter), 100n);
  driver.push(time('least wait', asked), time('lateness', late));
  const [found, at] = [new BigUint64Array(9), new BigUint64Array(1)];
  throwFault(calls.bounds(text, BigUint64Array.from(driver), whole('steps', steps), found, at), at[0], text);
  return new Bounds(found);
}

/** A compiled text, its state before any step, and the state of its steps. Copies share the first two. */
class Schedule {
  #text;
  #program;
  #first;
  #state;

  constructor(text, state = null) {
    if (text instanceof Schedule) {
      [this.#text, this.#program, this.#first] = [text.#text, text.#program, text.#first];
      this.#state = text.#state.slice();
    } else {
      const [data, sizes, at] = [Buffer.from(text), new BigUint64Array(2), new BigUint64Array(1)];
      throwFault(calls.compile(data, PROGRAM, STATE, sizes, at), at[0], data);
      this.#text = data.toString();
      [this.#program, this.#first] = [PROGRAM.slice(0, Number(sizes[0])), STATE.slice(0, Number(sizes[1]))];
      this.#state = this.#first.slice();
    }
    if (state !== null) {
      if (state[0] !== this.#first[0]) {
        throwFault(OTHER_VERSION);
      }
      if (state.length !== this.#first.length || state[1] !== this.#first[1]) {
        throwFault(OTHER_STATE);
      }
      this.#state.set(state);
    }
  }

  get text() {
    return this.#text;
  }

  get state() {
    return this.#state.slice();
  }

  begin() {
    return new Schedule(this, this.#first);
  }

  after(moment, input = 0n) {
    const next = new BigUint64Array(1);
    const [now, code] = [whole('moment', moment), whole('input', input)];
    return this.#isNext(calls.step(this.#program, this.#state, now, code, next)) ? numberOf(next[0]) : null;
  }

  plan(began, ended, input = 0n, { least = 0, longest = HOUR, jitter = 0, draw } = {}) {
    const [percent, next] = [percentOf(jitter), new BigUint64Array(1)];
    const it = [nanoseconds('begin', began), nanoseconds('end', ended), whole('input', input)];
    it.push(time('least wait', least), time('longest wait', longest), percent);
    it.push(whole('draw', draw ?? (percent && Math.floor(DRAWS * Math.random())), DRAWS - 1));
    return this.#isNext(calls.plan(this.#program, this.#state, BigUint64Array.from(it), next))
      ? Number(next[0] / 1000000n) + Number(next[0] % 1000000n) / 1e6 : null;
  }

  #isNext(number) {
    throwFault(number);
    return number !== DONE;
  }

  output() {
    const size = BigUint64Array.of(255n);
    let out;
    do {
      out = Buffer.alloc(Number(size[0]) + 1);
      throwFault(calls.output(this.#program, this.#state, out, size));
    } while (size[0] >= out.length);
    return out.toString('ascii', 0, Number(size[0]));
  }
}

/** Calls a function once when a signal is aborted. Many retries may listen to one signal. */
function listen(signal, call) {
  if (signal instanceof EventTarget) {
    setMaxListeners(0, signal);
  }
  signal?.addEventListener('abort', call, { once: true });
}

/** The clock of a retry without one. A wait of 0 lets the event loop turn. */
const SYSTEM = {
  now: () => performance.now(),
  sleep: (wait, signal) => new Promise((resolve) => {
    if (wait <= 0 || signal?.aborted) {
      setImmediate(resolve);
      return;
    }
    const end = () => {
      clearTimeout(timer);
      signal?.removeEventListener('abort', end);
      resolve();
    };
    const timer = setTimeout(end, Math.ceil(wait));
    listen(signal, end);
  }),
};

/** A clock for tests: nothing sleeps, and its time moves by each wait, so decisions are those of production. */
class TestClock {
  #now = 0;

  now() {
    return this.#now;
  }

  async sleep(wait) {
    this.#now += wait;
    await new Promise((resolve) => { turn(resolve); });
  }

  /** Moves the clock, as an attempt that takes some time does. */
  advance(millis) {
    this.#now += millis;
  }
}

/** Sleeps until a moment of a clock, which decides: a timer may end early. Ends at once if the signal is aborted. */
async function sleep(clock, until, signal, cause) {
  let [now, early] = [clock.now(), 0];
  do {
    const [begun, wait] = [now, Math.min(Math.max(until - now, 0), LONGEST)];
    await clock.sleep(wait, signal);
    now = clock.now();
    early += now - begun < wait;
    if (early > EARLY_MOST && until > now && !signal?.aborted) {
      throw new Error(`zsched: a sleep ended early ${early} times, as if setTimeout were replaced: in tests set the `
        + 'clock of the Retry to a new TestClock()', { cause });
    }
  } while (until > now && !signal?.aborted);
}

/** Returns the result of hooks. If they fail, the error is thrown, with what failed as its `notTriedAgain`. */
function resultFor(error, hooks) {
  try {
    return hooks();
  } catch (fault) {
    if (error instanceof Error && Object.isExtensible(error)) {
      error.notTriedAgain = fault;
    }
    return null;
  }
}

/** Returns a signal that is aborted with another, or after some milliseconds, and what has to be called at the end. */
function limited(signal, most) {
  const control = new AbortController();
  const follow = () => control.abort(signal.reason);
  const timer = setTimeout(() => control.abort(new DOMException(`no end after ${most} ms`, 'TimeoutError')), most);
  listen(signal, follow);
  return [control.signal, () => {
    clearTimeout(timer);
    signal?.removeEventListener('abort', follow);
  }];
}

/** Returns the value or the error of an attempt. Throws a TypeError for a generator, which hasn't run yet. */
async function outcome(attempt, number, given, most) {
  const [signal, end] = most === undefined ? [given] : limited(given, most);
  let value;
  try {
    value = await attempt(number, signal);
  } catch (error) {
    return { error };
  } finally {
    end?.();
  }
  if (isGeneratorObject(value)) {
    throw new TypeError(`zsched: ${attempt.name || 'the attempt'} returns a generator, whose body runs after the call: `
      + 'retry the function that uses it');
  }
  return { value };
}

/** Awaits a hook. If it fails, the attempt's error is the cause of that, unless it has another. */
async function awaited(hook, event) {
  try {
    return await hook(event);
  } catch (fault) {
    if (fault instanceof Error && fault.cause === undefined && Object.isExtensible(fault) && event.error) {
      fault.cause = event.error;
    }
    throw fault;
  }
}

/** Throws an error if no retry can have these options. */
function checkOptions(options) {
  const { jitter, retryAfterMost, attemptMost = 1, deadline = 1 } = options;
  const unknown = Object.keys(options).filter((it) => !OPTIONS.includes(it));
  const hooks = ['inputOf', 'shouldRetry', 'retryAfter', 'onEvent'].filter(
    (it) => options[it] !== undefined && typeof options[it] !== 'function');
  if (unknown.length || hooks.length) {
    throw new TypeError(`zsched: a Retry has no option ${unknown[0] ?? `${hooks[0]} that is no function`}: it has ${
      OPTIONS.join(', ')}`);
  }
  checkRange('jitter', jitter ?? 0, 1);
  checkRange('retryAfterMost', retryAfterMost ?? 0, Number.MAX_SAFE_INTEGER);
  for (const [name, limit] of [['attemptMost', attemptMost], ['deadline', deadline]]) {
    if (!(limit > 0 && limit <= (name === 'deadline' ? Number.MAX_SAFE_INTEGER : LONGEST))) {
      throw new RangeError(`zsched: the ${name} ${limit} is not above 0, or too long`);
    }
  }
}

/** A loop of attempts: a schedule and options. It has no state, so any number of calls may share it. */
class Retry {
  #schedule;
  #options;

  constructor(schedule = DEFAULT, options = {}) {
    checkOptions(options);
    const { jitter = schedule === DEFAULT ? 1 : 0, retryAfterMost = HOUR } = options;
    this.#options = { ...options, jitter, retryAfterMost };
    this.#schedule = schedule instanceof Schedule ? schedule : new Schedule(schedule);
    this.clock = options.clock;
  }

  async call(attempt, { signal } = {}) {
    if (typeof attempt !== 'function') {
      throw new TypeError('zsched: the attempt is no function');
    }
    const [{ attemptMost, budget, onEvent }, clock] = [this.#options, this.clock ?? SYSTEM];
    const run = { clock, signal, start: clock.now(), began: 0, number: 0, error: undefined, schedule: null };
    if (signal?.aborted) {
      await this.#end('cancelled', run, 0, new Aborted(signal.reason));
    }
    for (;;) {
      run.number += 1;
      const found = await outcome(attempt, run.number, signal, attemptMost);
      if ('value' in found) {
        budget?.add();
        if (onEvent) {
          await onEvent(this.#event('succeeded', { ...run, error: null }, clock.now() - run.start));
        }
        return found.value;
      }
      await this.#next(run, found.error);
    }
  }

  /** Sleeps after an attempt that failed. Throws the error of the call if no other attempt follows. */
  async #next(run, error) {
    const { shouldRetry, onEvent, deadline = Infinity } = this.#options;
    const { clock, signal, number, start } = run;
    const elapsed = Math.max(0, clock.now() - start);
    const last = run.error;
    // What ends by the abort of its signal is no failed attempt.
    const isAbort = signal?.aborted && (error === signal.reason || error?.name === 'AbortError');
    run.error = isAbort ? last ?? error : error;
    if (!isAbort && shouldRetry && !await awaited(shouldRetry, { error, number })) {
      await this.#end('not retried', run, elapsed, error);
    }
    await this.#endIfAborted(run, elapsed);
    const begin = await this.#plan(run, elapsed);
    if (begin > deadline) {
      await this.#end('deadline', run, elapsed, error);
    }
    if (onEvent) {
      await awaited(onEvent, this.#event(null, run, elapsed, Math.round(1e6 * Math.max(0, begin - elapsed)) / 1e6));
    }
    await sleep(clock, start + begin, signal, error);
    await this.#endIfAborted(run, elapsed);
    run.began = clock.now() - start;
  }

  /** Returns when the next attempt begins, from the begin of the first. */
  async #plan(run, elapsed) {
    const { inputOf, retryAfter, budget, jitter, retryAfterMost: longest } = this.#options;
    const { error } = run;
    const found = resultFor(error, () => [
      inputOf ? whole('input', inputOf(error)) : 0n, retryAfter ? time('least wait', retryAfter(error) ?? 0) : 0n]);
    if (!found) {
      await this.#end('not retried', run, elapsed, error);
    }
    if (!(budget?.take() ?? true)) {
      await this.#end('budget', run, elapsed, error);
    }
    run.schedule ??= this.#schedule.begin();
    const begin = run.schedule.plan(run.began, elapsed, found[0], { least: found[1], longest, jitter });
    return begin ?? this.#end('gave up', run, elapsed, error);
  }

  #event(why, { number, error }, elapsed, wait = null) {
    return { name: this.#options.name, number, error: error ?? null, elapsed, wait, why };
  }

  async #endIfAborted(run, elapsed) {
    if (run.signal?.aborted) {
      await this.#end('cancelled', run, elapsed, new Aborted(run.signal.reason, run.error));
    }
  }

  /** Says why a call ends, and throws its error. */
  async #end(why, run, elapsed, error) {
    if (this.#options.onEvent) {
      await awaited(this.#options.onEvent, this.#event(why, run, elapsed));
    }
    throw error;
  }

  /** Returns the Bounds of each call, whose timers end at most `late` ms late. */
  bounds({ late, steps, trustingAttempts: [shortest = 1, trusted = Infinity] = [] } = {}) {
    if (late === undefined) {
      throw new TypeError('zsched: how many milliseconds late may timers be? bounds({ late: .. })');
    }
    checkRange('lateness', late, Infinity);
    checkRange('least of an attempt', shortest, Infinity);
    checkRange('most of an attempt', trusted, Infinity);
    const { jitter, retryAfter, retryAfterMost, attemptMost = Infinity, deadline, budget } = this.#options;
    const longest = Math.max(1, Math.min(trusted, attemptMost + late));
    const found = bounds(this.#schedule, steps, {
      attempt: [Math.max(1, shortest), longest], jitter, asked: retryAfter ? retryAfterMost : 0, late });
    if (budget || deadline) {
      found.least = 1;
    }
    if (deadline) {
      found.longest = Math.min(found.longest, deadline + late);
      found.total = Math.min(found.total, deadline + late);
      found.longestRun = Math.min(found.longestRun, deadline + late + longest);
    }
    return found;
  }
}

/**
 * Returns how many milliseconds a header Retry-After asks to wait: seconds, or an HTTP date, which counts
 * from now. Anything else is null.
 */
function retryAfterOf(header, now = Date.now()) {
  const text = String(header ?? '').trim();
  if (/^\d+$/.test(text)) {
    return 1000 * Number(text);
  }
  const at = DATES.some((form) => form.test(text)) ? Date.parse(text.endsWith('GMT') ? text : `${text} GMT`) : NaN;
  return Number.isNaN(at) ? null : Math.max(0, at - now);
}

function version() {
  return calls.version();
}

module.exports = {
  Aborted, Bounds, Budget, DEFAULT, Fault, Retry, Schedule, TestClock, bounds, retryAfterOf, version };

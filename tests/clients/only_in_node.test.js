'use strict';
// Tests what only the binding for Node has: `node --test`.
const assert = require('node:assert');
const { test } = require('node:test');
const { readFileSync } = require('node:fs');
const {
  Aborted, Budget, DEFAULT, Fault, Retry, Schedule, TestClock, bounds, retryAfterOf,
} = require('zsched');

const POLICY = '((exponential(100) || spaced(5000)) && recurs(8))';

function failed() {
  throw new Error('failed');
}

/** Returns what a call by a new Retry resolves to. */
function retry(text, attempt, { signal, ...options } = {}) {
  return new Retry(text, options).call(attempt, { signal });
}

test('an abort in a wait keeps the last error', async () => {
  const control = new AbortController();
  setTimeout(() => control.abort(new Error('late')), 20);
  await assert.rejects(retry('spaced(100000)', failed, { signal: control.signal }), (error) => {
    const found = [error.name, error.cause.message, error.lastError.message];
    assert.deepStrictEqual(found, ['AbortError', 'late', 'failed']);
    return true;
  });
});

test('an attempt gets its number and the signal, and no other follows an abort', async () => {
  const control = new AbortController();
  const attempts = [];
  const attempt = (number, signal) => {
    attempts.push([number, signal === control.signal]);
    if (number === 3) {
      control.abort();
    }
    failed();
  };
  await assert.rejects(retry('forever', attempt, { signal: control.signal }), { name: 'AbortError' });
  assert.deepStrictEqual(attempts, [[1, true], [2, true], [3, true]]);
});

test('an abort in a hook ends the wait', async () => {
  for (const hook of ['onEvent', 'shouldRetry', 'retryAfter', 'inputOf']) {
    const control = new AbortController();
    const options = { signal: control.signal, [hook]: () => { control.abort(); return 1; } };
    const ended = retry('spaced(100000)', failed, options);
    await assert.rejects(ended, (error) => error.lastError.message === 'failed');
  }
});

test('an abort that ends an attempt keeps the error before it, whichever errors are retried', async () => {
  const control = new AbortController();
  const attempt = (number, signal) => {
    if (number === 3) {
      control.abort();
      signal.throwIfAborted();
    }
    failed();
  };
  const options = { signal: control.signal, shouldRetry: ({ error }) => error.message === 'failed' };
  const ended = retry('forever', attempt, options);
  await assert.rejects(ended, (error) => error instanceof Aborted && error.lastError.message === 'failed');
});

test('an error that is not retried is thrown after an abort too', async () => {
  const control = new AbortController();
  const attempt = () => {
    control.abort();
    failed();
  };
  const options = { signal: control.signal, shouldRetry: () => false };
  await assert.rejects(retry('forever', attempt, options), { message: 'failed' });
});

test('a wait of 0 lets timers run', async () => {
  let isLate = false;
  setTimeout(() => { isLate = true; }, 5);
  assert.strictEqual(await retry('(forever && recurs(1000000))', () => isLate || failed()), true);
});

test('an event says the attempt, the wait, and why a call ends', async () => {
  const [ended, error] = [AbortSignal.abort(), new Error('failed')];
  const fail = () => { throw error; };
  for (const [text, options, attempt, wanted] of [
    ['recurs(1)', {}, (number) => number === 2 || fail(), [[1, error, 1, null], [2, null, null, 'succeeded']]],
    ['(spaced(10) && recurs(1))', {}, fail, [[1, error, 11, null], [2, error, null, 'gave up']]],
    ['spaced(10)', { deadline: 21 }, fail, [[1, error, 11, null], [2, error, null, 'deadline']]],
    ['recurs(1)', { budget: new Budget(1, 0) }, fail, [[1, error, null, 'budget']]],
    ['recurs(1)', { shouldRetry: () => false }, fail, [[1, error, null, 'not retried']]],
    ['recurs(1)', { inputOf: () => '503' }, fail, [[1, error, null, 'not retried']]],
    ['recurs(1)', { signal: ended }, fail, [[0, null, null, 'cancelled']]],
  ]) {
    const [events, clock] = [[], new TestClock()];
    const onEvent = async (event) => {
      await new Promise((resolve) => { setTimeout(resolve, 2); });
      events.push(event);
    };
    const awaiting = (number) => {
      assert.strictEqual(events.length, number - 1, 'a hook is awaited');
      return attempt(number);
    };
    await retry(text, awaiting, { ...options, onEvent, clock, name: 'fetch' }).catch((fault) => {
      assert(fault === error || fault instanceof Aborted, fault);
    });
    assert.deepStrictEqual(events.map((it) => [it.number, it.error, it.wait, it.why]), wanted);
    assert(events.every((it, place) => it.name === 'fetch' && it.elapsed === 11 * place * (text !== 'recurs(1)')
      || text === 'recurs(1)'));
  }
});

test('hooks that fail hide no error, and take no token', async () => {
  const wrong = [NaN, '1', {}, Promise.resolve(1), true];
  const found = [
    ...[undefined, null, -1, 0.5, Infinity, 2n ** 64n, ...wrong].map((it) => ['inputOf', () => it]),
    ...wrong.map((it) => ['retryAfter', () => it]),
    ...['inputOf', 'retryAfter'].map((name) => [name, () => { throw new TypeError('broken'); }]),
  ];
  for (const [name, hook] of found) {
    const budget = new Budget();
    const onEvent = ({ why }) => assert.strictEqual(why, 'not retried');
    const ended = retry('recurs(2)', failed, { [name]: hook, budget, onEvent });
    await assert.rejects(ended, (error) => {
      assert.match(error.notTriedAgain.message, /^zsched: the (input|least wait) |^broken$/);
      return error.message === 'failed' && [TypeError, RangeError].includes(error.notTriedAgain.constructor);
    });
    assert.strictEqual(budget.tokens, 10);
  }
  const frozen = Object.freeze(new Error('frozen'));
  await assert.rejects(retry('recurs(2)', () => { throw frozen; }, { inputOf: () => '503' }), frozen);
});

test('a least wait below 0 counts as none, and an infinite one as the longest', async () => {
  const found = [[-5, 0], [-Infinity, 0], [null, 0], [7n, 7], [6.5, 7], [Infinity, 20], [2 ** 70, 20]];
  for (const [least, wanted] of found) {
    const waits = [];
    const options = { retryAfter: () => least, retryAfterMost: 20, onEvent: ({ wait }) => waits.push(wait) };
    await assert.rejects(retry('recurs(1)', failed, options), /failed/);
    assert.deepStrictEqual(waits.map((wait) => wait && Math.floor(wait)), [wanted, null]);
  }
});

test('each option of a loop changes its bounds', () => {
  const [trustingAttempts, retryAfter] = [[0, 5000], () => 3600000];
  for (const [options, guard, least, most, longest, total, run] of [
    [{}, { late: 0 }, 9, 9, 5000, 16300, Infinity],
    [{}, { late: 0, trustingAttempts }, 9, 9, 5000, 16300, 61301],
    [{}, { late: 100, trustingAttempts }, 9, 9, 5100, 17100, 62101],
    [{}, { late: Infinity, trustingAttempts }, 9, 9, Infinity, Infinity, Infinity],
    [{}, { late: 0, trustingAttempts, steps: 3 }, 4, Infinity, 400, Infinity, Infinity],
    [{ attemptMost: 1000 }, { late: 0 }, 9, 9, 5000, 16300, 25301],
    [{ attemptMost: 1000 }, { late: 100 }, 9, 9, 5100, 17100, 27001],
    [{ retryAfter }, { late: 0, trustingAttempts }, 9, 9, 3600000, 28800000, 28845001],
    [{ retryAfter, retryAfterMost: 10000 }, { late: 0, trustingAttempts }, 9, 9, 10000, 80000, 125001],
    [{ retryAfter, retryAfterMost: 0 }, { late: 0, trustingAttempts }, 9, 9, 5000, 16300, 61301],
    [{ deadline: 4000 }, { late: 100, trustingAttempts }, 1, 9, 4100, 4100, 9100],
    [{ budget: new Budget() }, { late: 0 }, 1, 9, 5000, 16300, Infinity],
  ]) {
    const found = new Retry(POLICY, options).bounds(guard);
    assert.deepStrictEqual([found.least, found.most, found.longest, found.total], [least, most, longest, total]);
    assert.strictEqual(found.longestRun, run, JSON.stringify(options));
    assert.strictEqual(found.endsWithin(90000), run < 90000);
  }
  const text = '(spaced(400) && elapsed).whileOutput(_2 < 2000)';
  assert.deepStrictEqual([0, 0.5].map((jitter) => new Retry(text, { jitter }).bounds({ late: 0 }).most), [6, 11]);
  assert.throws(() => new Retry().bounds(), /how many milliseconds late/);
  const ranges = [[-1, 5], [1, -5]].map((trusting) => ({ late: 0, trustingAttempts: trusting }));
  for (const wrong of [{ late: -1 }, { late: NaN }, ...ranges]) {
    assert.throws(() => new Retry().bounds(wrong), RangeError);
  }
});

test('the default has the bounds of the page, and draws its waits', async () => {
  const found = new Retry().bounds({ late: 0, trustingAttempts: [0, 5000] });
  const page = readFileSync(require.resolve('zsched').replace('zsched.js', 'README.md'), 'utf8');
  assert(page.includes(`\`${DEFAULT}\``));
  const said = `at most ${found.most} attempts, waits of at most ${found.longest} ms and of ${found.total} ms together`;
  assert(page.replace(/\s+/g, ' ').includes(said));
  const waits = new Set();
  const loop = new Retry(undefined, { clock: new TestClock(), onEvent: ({ wait }) => waits.add(wait) });
  for (let i = 0; i < 5; i += 1) {
    await assert.rejects(loop.call(failed), /failed/);
  }
  assert(waits.size > 10);
});

test('a clock that fell in an attempt counts as one that stood still', async () => {
  const [clock, waits] = [new TestClock(), []];
  const { sleep } = clock;
  clock.sleep = (wait) => sleep.call(clock, wait + 5);
  const attempt = (number) => { clock.advance(number === 1 ? 5.9 : -30); failed(); };
  const onEvent = ({ wait }) => waits.push(wait);
  await assert.rejects(retry('(spaced(30) && recurs(2))', attempt, { clock, onEvent }), /failed/);
  // Attempts begin at 0 and late at 40 ms; the second ends at 10, and the third begins 30 ms after 40.
  assert.deepStrictEqual(waits, [29.1, 60, null]);
});

test('a test clock decides as in production, also under mock timers and for waits of years', async (t) => {
  const [events, begun] = [[], performance.now()];
  const loop = new Retry(POLICY, { onEvent: (event) => events.push(event) });
  t.mock.timers.enable();
  loop.clock = new TestClock();
  let attempts = 0;
  await assert.rejects(loop.call(() => { attempts += 1; loop.clock.advance(5); failed(); }), /failed/);
  assert(performance.now() - begun < 5000);
  const waits = [100, 200, 400, 800, 1600, 3200, 5000, 5000, null];
  assert.deepStrictEqual([attempts, events.map((it) => it.wait)], [9, waits]);
  assert.deepStrictEqual(events.map((it) => it.elapsed), waits.map(
    (_, place) => waits.slice(0, place).reduce((sum, wait) => sum + wait + 5, 5)));
  loop.clock = new TestClock();
  const years = new Retry('(spaced(4000000000000) && recurs(1))', { clock: loop.clock });
  await assert.rejects(years.call(failed), /failed/);
  assert.strictEqual(loop.clock.now(), 4000000000001);
});

test('under mock timers and a stubbed setTimeout a retry ends with an error that names the test clock', async (t) => {
  for (const way of ['timers', 'stub', 'at once']) {
    let [attempts, fault, asked] = [0, null, 0];
    const attempt = () => { attempts += 1; failed(); };
    if (way === 'timers') {
      t.mock.timers.enable({ apis: ['setTimeout'] });
    } else {
      t.mock.method(globalThis, 'setTimeout', (end) => {
        asked += 1;
        return way === 'stub' ? setImmediate(end) : queueMicrotask(end);
      });
    }
    const ended = new Retry('(spaced(3600000) && recurs(3))').call(attempt).catch((error) => { fault = error; });
    for (let tick = 0; way === 'timers' && tick < 150 && !fault; tick += 1) {
      t.mock.timers.tick(3600000);
      await new Promise((resolve) => { setImmediate(resolve); });
    }
    await ended;
    t.mock.timers.reset();
    t.mock.restoreAll();
    assert.match(fault.message, /new TestClock\(\)/);
    assert.strictEqual(fault.cause.message, 'failed');
    assert.deepStrictEqual([attempts, asked], [1, way === 'timers' ? 0 : 101]);
  }
});

test('an own clock over mock timers ticks as the test says', async (t) => {
  t.mock.timers.enable({ apis: ['setTimeout', 'Date'] });
  const sleep = (wait) => new Promise((resolve) => { setTimeout(resolve, wait); });
  const loop = new Retry(POLICY, { clock: { now: () => Date.now(), sleep } });
  let [attempts, done] = [0, false];
  const ended = loop.call(() => { attempts += 1; failed(); }).catch(() => { done = true; });
  for (let tick = 0; tick < 50; tick += 1) {
    t.mock.timers.tick(1000);
    await new Promise((resolve) => { setImmediate(resolve); });
  }
  await ended;
  assert.deepStrictEqual([attempts, done], [9, true]);
});

test('a deadline ends a call at once', async () => {
  for (const [deadline, wanted] of [[306, 4], [305, 3]]) {
    const clock = new TestClock();
    let attempts = 0;
    // Attempts of 1, 2 and 3 ms begin at 0, 101, 203 and 306 ms.
    const attempt = () => { attempts += 1; clock.advance(attempts); failed(); };
    await assert.rejects(retry('spaced(100)', attempt, { clock, deadline }), /failed/);
    assert(attempts === wanted && clock.now() <= deadline + 4);
  }
});

test('a Retry-After is seconds or a date', () => {
  const now = Date.UTC(2026, 10, 29, 22);
  for (const [header, wanted] of [
    ['120', 120000], [' 7 ', 7000], ['0', 0], ['', null], [null, null], [undefined, null], ['-3', null], ['1.5', null],
    ['soon', null], ['1e3', null], ['0x10', null], ['99999999999999999999', 1e23],
    ['Sun, 29 Nov 2026 22:00:30 GMT', 30000],
    ['Sun, 29 Nov 2026 21:59:59 GMT', 0], ['Sunday, 29-Nov-26 22:01:00 GMT', 60000], ['Sun Nov 29 22:00:01 2026', 1000],
    ['Sun, 29 Nov 2026 22:00:30', null], ['2026-11-29T22:00:30Z', null], ['Sun, 99 Nov 2026 22:00:30 GMT', null],
  ]) {
    assert.strictEqual(retryAfterOf(header, now), wanted, String(header));
  }
  assert(retryAfterOf(new Date(Date.now() + 9e6).toUTCString()) > 8.9e6);
});

test('many retries may listen to one signal', async () => {
  const [control, warnings] = [new AbortController(), []];
  const note = (warning) => warnings.push(warning.name);
  process.on('warning', note);
  const calls = Array.from({ length: 30 }, () => retry('spaced(100000)', async (_, signal) => {
    signal.addEventListener('abort', () => {});
    failed();
  }, { signal: control.signal, attemptMost: 5000 }));
  await new Promise((resolve) => { setTimeout(resolve, 50); });
  control.abort();
  const names = (await Promise.allSettled(calls)).map((it) => it.reason.name);
  assert.deepStrictEqual(new Set(names), new Set(['AbortError']));
  await new Promise((resolve) => { setImmediate(resolve); });
  process.off('warning', note);
  assert.deepStrictEqual(warnings, []);
});

test('bounds are numbers, which have a text in JSON', () => {
  const found = bounds('(exponential(100) && recurs(5))', 1000, { attempt: [1, 5000] });
  assert(found.most === 6 && found.most + 1 === 7 && JSON.parse(JSON.stringify(found)).total === 3100);
  assert(found.within(6, 3100) && !found.within(5, 3100) && !found.within(6, 3099));
  const none = bounds('spaced(9007199254740993)');
  assert.deepStrictEqual([none.most, none.longest, none.endsWithin(Infinity)], [Infinity, Infinity, false]);
  assert.strictEqual(new Schedule('spaced(9007199254740992)').after(1), Infinity);
});

test('options and texts that no retry can have are errors', async () => {
  await assert.rejects(retry('recurs(2)', Promise.resolve(1)), TypeError);
  for (const wrong of [{ jiter: 1 }, { onFailedAttempt: failed }, { inputOf: 503 }, { onEvent: 'log' }]) {
    assert.throws(() => new Retry('recurs(2)', wrong), TypeError);
  }
  assert.throws(() => new Schedule('recurs('), (fault) => fault instanceof Fault && fault.at === 7);
  for (const name of ['retryAfterMost', 'attemptMost', 'deadline']) {
    for (const wrong of [-1, NaN, Infinity]) {
      assert.throws(() => new Retry('recurs(2)', { [name]: wrong }), RangeError);
    }
  }
  for (const jitter of [-1, 2, NaN, 'x']) {
    assert.throws(() => new Retry('recurs(2)', { jitter }), RangeError);
  }
  for (const words of [[-1], [NaN], ['10'], [3, -1], [Infinity], [3, Infinity]]) {
    assert.throws(() => new Budget(...words), RangeError);
  }
  assert.strictEqual(new Budget(0, 0).take(), false);
});

test('a generator is an error that names its function, and no value', async () => {
  const budget = new Budget(9, 1);
  budget.take();
  const tried = [
    async function* pages() { yield 1; },
    function* lines() { yield 1; },
    async () => (function* () { yield 1; })(),
  ];
  for (const [place, attempt] of tried.entries()) {
    const message = new RegExp(`^zsched: ${['pages', 'lines', 'the attempt'][place]} returns a generator`);
    await assert.rejects(retry('recurs(3)', attempt, { budget }), { name: 'TypeError', message });
  }
  assert.strictEqual(budget.tokens, 8);
});

test('copies of a schedule have their own states, and numbers out of range leave a schedule as it was', () => {
  const schedule = new Schedule('(spaced(10) && recurs(2))');
  assert.throws(() => schedule.output(), (fault) => fault instanceof Fault && fault.number === 2);
  assert.strictEqual(schedule.plan(-7, -3), 11);
  const copy = new Schedule(schedule);
  assert.deepStrictEqual([copy.after(20), copy.output(), schedule.output()], [30, '(1,1)', '(0,0)']);
  assert.strictEqual(copy.text, schedule.text);
  const before = schedule.state;
  const wrong = [
    ...[-1, 0.5, NaN, '3', undefined, 2n ** 64n].map((it) => () => schedule.after(it)),
    ...[{ jitter: 1.1 }, { jitter: NaN }, { draw: -1 }, { draw: 2n ** 32n }, { least: NaN }, { longest: '9' }].map(
      (it) => () => schedule.plan(1, 2, 3, it)),
    () => schedule.plan(NaN, 2), () => schedule.plan(1, null), () => schedule.plan(1n, 2),
    () => schedule.plan(1, 2, -3),
  ];
  for (const call of wrong) {
    assert.throws(call, (error) => {
      assert.match(error.message, /^zsched: the /);
      return [TypeError, RangeError].includes(error.constructor);
    });
  }
  assert.throws(() => copy.after(19), (fault) => fault instanceof Fault && fault.number === 3);
  assert.deepStrictEqual([schedule.state, schedule.begin().state], [before, new Schedule(schedule.text).state]);
  assert.strictEqual(new Schedule(copy.begin(), schedule.state).output(), '(0,0)');
  for (const [words, number] of [[[], 18], [schedule.state.slice(1), 18], [new Schedule('recurs(2)').state, 9]]) {
    assert.throws(() => new Schedule(schedule.text, words), (fault) => fault instanceof Fault && fault.number === number);
  }
});

test('jitter takes off a part of each wait, at random without a draw', () => {
  const schedule = new Schedule('spaced(1000000)');
  const begins = [0, 2 ** 31, 2 ** 32 - 1].map((draw) => schedule.begin().plan(0, 0, 0, { jitter: 0.5, draw }));
  assert.deepStrictEqual(begins.map((it) => Math.round(it)), [1000001, 750001, 500001]);
  const drawn = new Set(Array.from({ length: 20 }, () => schedule.begin().plan(0, 0, 0, { jitter: 0.5 })));
  assert(drawn.size > 10 && [...drawn].every((it) => it >= begins[2] && it <= begins[0]));
});

test('an abort ends an attempt with a limit, whose timer and listener go', async () => {
  const control = new AbortController();
  const attempt = (number, signal) => new Promise((resolve, reject) => {
    signal.addEventListener('abort', () => reject(signal.reason));
    setTimeout(() => control.abort(new Error('gone')), 5);
  });
  const [begun, options] = [Date.now(), { signal: control.signal, attemptMost: 20000 }];
  await assert.rejects(retry('forever', attempt, options), (error) => error.cause.message === 'gone');
  assert(Date.now() - begun < 10000);
  const reasons = [];
  const slow = (number, signal) => new Promise((resolve, reject) => {
    signal.addEventListener('abort', () => reject(signal.reason));
  });
  const onEvent = ({ error }) => reasons.push(error.name);
  const ended = retry('recurs(1)', slow, { attemptMost: 5, onEvent });
  await assert.rejects(ended, { name: 'TimeoutError' });
  assert.deepStrictEqual(reasons, ['TimeoutError', 'TimeoutError']);
});

test('calls share a schedule, whose state is never theirs', async () => {
  const schedule = new Schedule('recurs(20)');
  schedule.after(5);
  let attempts = 0;
  const loop = new Retry(schedule);
  await Promise.allSettled(Array.from({ length: 8 }, () => loop.call(() => { attempts += 1; failed(); })));
  assert.deepStrictEqual([attempts, schedule.output()], [8 * 21, '0']);
});

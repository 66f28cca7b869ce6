'use strict';
// The client of the library in JavaScript. client.c documents the requests and the lines.
const { createInterface } = require('node:readline');
const { Aborted, Budget, Fault, Retry, Schedule, bounds, version } = require('zsched');

const shared = new Budget(10, 0.5);

/** Returns nanoseconds as milliseconds, and milliseconds as nanoseconds. */
const millis = (nanoseconds) => Number(nanoseconds / 1000000n) + Number(nanoseconds % 1000000n) / 1e6;
const nanos = (time) => BigInt(Math.floor(time)) * 1000000n + BigInt(Math.round((time % 1) * 1e6));
/** Returns a bound as a line has it. */
const plain = (bound) => (bound === Infinity ? 2n ** 64n - 1n : bound);

function failure(code) {
  return Object.assign(new Error('failed'), { code });
}

/** Returns a schedule of the text with the state of another one, stored as text between. */
function stored(text, schedule) {
  return new Schedule(text, JSON.parse(JSON.stringify([...schedule.state].map(String))).map(BigInt));
}

function steps(command, text, numbers, said) {
  let schedule = new Schedule(text);
  for (let i = 0; i < numbers.length; i += 2) {
    if (command === 'stored') {
      schedule = stored(text, schedule);
    }
    const next = schedule.after(numbers[i], numbers[i + 1]);
    said.push(`${next === null ? 1 : 0},${next ?? 0},${schedule.output()}`);
  }
}

function planned(text, [percent, least, longest, ...numbers], said) {
  const schedule = new Schedule(text);
  for (let i = 0; i < numbers.length; i += 4) {
    const [began, ended, input, draw] = numbers.slice(i);
    const turn = { least: Number(least), longest: Number(longest), jitter: Number(percent) / 100, draw: Number(draw) };
    const begin = schedule.plan(millis(began), millis(ended), input, turn);
    said.push(`${begin === null ? 1 : 0},${nanos(begin ?? 0)}`);
  }
}

/** A loop over restarts, whose clock is set back once. */
function restarted(text, [code, back, most]) {
  const start = 1e12;
  let [schedule, clock, count, last] = [new Schedule(text), start, 0n, 0];
  while (count < most) {
    count += 1n;
    clock -= count === 3n ? Number(back) : 0;
    schedule = stored(text, schedule);
    const begin = schedule.plan(clock - start, clock - start, code);
    if (begin === null) {
      break;
    }
    [last, clock] = [begin, start + begin];
  }
  return [count, nanos(last)];
}

async function retried(text, [code, times, jitter = 0n, least = 0n, stop, isLimited, most], said) {
  const begun = process.hrtime.bigint();
  const attempt = (number) => {
    said.push((process.hrtime.bigint() - begun) / 1000n);
    if (number <= times) {
      throw failure(code);
    }
    return 'done';
  };
  const retry = new Retry(text, {
    inputOf: (error) => error.code,
    budget: isLimited ? shared : undefined,
    jitter: Number(jitter) / 100,
    retryAfter: () => Number(least),
    retryAfterMost: most === undefined ? 3600000 : Number(most),
    shouldRetry: ({ error }) => error.code !== stop,
    onEvent: ({ number, wait }) => {
      if (stop !== undefined && wait !== null) {
        said.push(`${number}:${Math.round(wait)}`);
      }
    },
  });
  said.unshift(await retry.call(attempt).catch((error) => error.code));
}

/** Makes attempts that end some time after their signal, or in 5 seconds. */
async function limited(text, [code, times, most], said) {
  const begun = process.hrtime.bigint();
  const say = () => said.push((process.hrtime.bigint() - begun) / 1000n);
  const attempt = async (number, signal) => {
    say();
    if (number > times) {
      say();
      return 'done';
    }
    await new Promise((resolve) => {
      const timer = setTimeout(resolve, 5000);
      signal?.addEventListener('abort', () => {
        clearTimeout(timer);
        setTimeout(resolve, 30);
      });
    });
    say();
    throw failure(code);
  };
  const retry = new Retry(text, { inputOf: (error) => error.code, attemptMost: Number(most) });
  said.unshift(await retry.call(attempt).catch((error) => error.code));
}

/** Makes a retry that fails, and whose hooks note that they are called. */
async function ordered(text, what, said) {
  const [control, budget] = [new AbortController(), what === 'broke' ? new Budget(1, 0) : new Budget(10, 0.5)];
  const attempt = () => {
    said.push('attempt');
    if (what === 'cancelled') {
      control.abort();
    }
    throw failure(7);
  };
  const retry = new Retry(text, {
    inputOf: (error) => said.push('input') && (what === 'input' ? undefined : error.code),
    budget,
    retryAfter: () => said.push('least') && (what === 'least' ? NaN : 0),
    shouldRetry: () => what !== 'unretried',
    onEvent: ({ why }) => said.push(why?.replaceAll(' ', '_') ?? 'sleep'),
  });
  const ended = retry.call(attempt, { signal: control.signal });
  said.push(await ended.catch((error) => (error instanceof Aborted ? 'cancelled' : error.code)));
  said.push(budget.tokens.toFixed(1));
}

/** Makes attempts that fail at once, at an edge of an option. */
async function edge(text, [what, number], said) {
  const [control, waits] = [new AbortController(), []];
  let attempts = 0;
  const options = {
    limit: { attemptMost: Number(number) },
    longest: { retryAfterMost: Number(number), retryAfter: () => 1500 },
    cancelled: control.abort(),
  };
  const attempt = () => {
    attempts += 1;
    throw failure(503);
  };
  try {
    const retry = new Retry(text, { onEvent: ({ wait }) => waits.push(wait), ...options[what] });
    await retry.call(attempt, what === 'cancelled' ? { signal: control.signal } : {});
  } catch (error) {
    const ended = error instanceof Aborted ? 'cancelled' : error.code;
    const lengths = waits.slice(0, -1).map((wait) => (wait < 1000 ? 'short' : 'long'));
    said.push(...(ended ? [attempts, ended, ...lengths] : ['refused']));
  }
}

/** Makes a call over a clock that it alone moves, and says what it did beside the bounds of its guard. */
async function guarded(text, [seed, jitter, asked, deadline, late, least, most, falls], said) {
  let [drawn, now, ended, attempts] = [seed, 0, 0, 0];
  const waits = [];
  const draw = (limit) => {
    drawn = (Math.imul(drawn, 1103515245) + 12345) >>> 0;
    return Math.floor(((drawn >>> 16) * limit) / 65535);
  };
  const move = (millis) => {
    now += millis;
    now -= falls && draw(3) === 0 ? draw(1e7) / 1000 : 0;
  };
  const retry = new Retry(text, {
    clock: { now: () => now, sleep: async (wait) => move(wait + draw(1000 * late) / 1000) },
    inputOf: (error) => error.code,
    jitter: jitter / 100,
    retryAfterMost: asked,
    ...(asked ? { retryAfter: () => draw(2 * asked) } : {}),
    ...(deadline ? { deadline } : {}),
  });
  await retry.call(() => {
    waits.push(now - ended);
    move(least + draw(1000 * (most - least)) / 1000);
    [attempts, ended] = [attempts + 1, now];
    if (attempts < 200) {
      throw failure(502 + draw(2));
    }
  }).catch((error) => error.code ?? said.push(error));
  const guard = falls ? { late: Infinity } : { late, trustingAttempts: [least, most] };
  const { longest, total, longestRun, ...found } = retry.bounds(guard);
  const times = [Math.max(...waits), waits.reduce((sum, wait) => sum + wait), ended].map((it) => Math.round(1e6 * it));
  said.push(attempts, ...times, ...[found.least, found.most, longest, total, longestRun].map((it) => (it === Infinity ? -1 : it)));
}

async function good(text, count) {
  const [retry, begun] = [new Retry(text, { inputOf: (error) => error.code }), process.hrtime.bigint()];
  for (let i = 0; i < count; i += 1) {
    await retry.call(() => i);
  }
  return (process.hrtime.bigint() - begun) / BigInt(count);
}

function bounded(text, [count, shortest = 1n, longest = 0n, jitter = 0n, asked = 0n, late = 0n]) {
  const attempt = [Number(shortest), Number(longest) || Infinity];
  const driver = { attempt, jitter: Number(jitter) / 100, asked: Number(asked), late: Number(late) };
  const found = bounds(text, Number(count), driver);
  const both = (it) => (it === Infinity ? [0, 0] : [1, it]);
  const [most, total, run] = [found.most, found.total, found.longestRun].map(both);
  return [found.seen, found.least, ...most, plain(found.longest), ...total, ...run];
}

function many(text, count) {
  const schedule = new Schedule(text);
  let moment = 0;
  for (let i = 1; i <= count; i++) {
    moment = schedule.after(moment, 503);
    if (i % (count / 10) === 0) {
      console.log();
    }
  }
}

/** Returns the message of a wrong text. */
function messageOf(text) {
  try {
    return new Schedule(text);
  } catch (fault) {
    return `.${Buffer.from(fault.message).toString('hex')}`;
  }
}

async function serve(command, text, words, said) {
  const numbers = ['order', 'edge'].includes(command) ? [] : words.map(BigInt);
  switch (command) {
    case 'version': return said.push(version());
    case 'moved': return stored(String(text).split('\n')[1], new Schedule(String(text).split('\n')[0]));
    case 'plan': return planned(text, numbers, said);
    case 'restarted': return said.push(...restarted(text, numbers));
    case 'retry': return retried(text, numbers, said);
    case 'limited': return limited(text, numbers, said);
    case 'order': return ordered(text, words[0], said);
    case 'edge': return edge(text, words, said);
    case 'guarded': return guarded(text, words.map(Number), said);
    case 'said': return said.push(messageOf(text));
    case 'good': return said.push(await good(text, Number(numbers[0])));
    case 'bounds': return said.push(...bounded(text, numbers));
    case 'many': return many(text, Number(numbers[0]));
    default: return steps(command, text, numbers, said);
  }
}

(async () => {
  for await (const line of createInterface({ input: process.stdin })) {
    const [command, text, ...words] = line.split(' ');
    const said = [];
    try {
      await serve(command, Buffer.from(text.slice(1), 'hex'), words, said);
    } catch (fault) {
      if (!(fault instanceof Fault)) {
        throw fault;
      }
      said.push(`${fault.number},${fault.at},${fault.message.split('\n')[0].split(': ')[0]}`);
    }
    console.log(said.join(' '));
  }
})();

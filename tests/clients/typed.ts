// Uses each call of zsched.d.ts: `tsc --strict`. A line after @ts-expect-error has to be rejected.
import {
  Aborted, Bounds, Budget, Clock, DEFAULT, Driver, Fault, Retry, RetryEvent, RetryOptions, Schedule, TestClock, Turn,
  bounds, retryAfterOf, version,
} from './zsched';

const text = '(exponential(10) && recurs(5))';
const schedule = new Schedule(text);
const next: number | null = new Schedule(schedule, new Schedule(new Uint8Array(3)).state).after(3n, 503);
const turn: Turn = { least: 100, longest: 60000, jitter: 0.5, draw: 2 ** 31 };
const begin: number | null = schedule.begin().plan(-1, 2.5, 503n, turn) ?? schedule.plan(0, 1);
const driver: Driver = { attempt: [1, 5000], jitter: 0.5, asked: 60000, late: Infinity };
const found: Bounds = bounds(schedule, 1000, driver);
const isShort: boolean = found.within(6, 3100) && bounds(text, 9, { attempt: [5] }).endsWithin(30000);
const numbers: number[] = [found.seen, found.least, found.most, found.longest, found.total, found.longestRun];
const budget = new Budget(10, 0.1);
const tokens: number = budget.take() ? budget.tokens : version();
const words: string[] = [schedule.text, schedule.output(), tokens.toFixed()];
const clock = new TestClock();
const own: Clock = { now: () => Date.now(), sleep: async (wait, signal) => clock.sleep(signal ? wait : 0) };
const options: RetryOptions = {
  name: 'fetch',
  inputOf: (error) => error.status,
  shouldRetry: async ({ error, number }) => number < 3
    && !(error instanceof Aborted && error.lastError && error.name && error.code),
  onEvent: ({ wait, why, elapsed }: RetryEvent) => console.log(
    wait?.toFixed(), why === 'gave up', elapsed, begin, next, isShort, numbers, words),
  jitter: 0.5,
  retryAfter: (error: Fault) => (error.number === 3 ? error.at : retryAfterOf(error.text, 7)),
  retryAfterMost: 60000,
  attemptMost: 5000,
  deadline: 60000,
  clock: own,
  budget,
};
budget.add();
clock.advance(5);
const loop = new Retry(schedule, options);
loop.clock = clock;
const ends: boolean = new Retry().bounds({ late: 100 }).endsWithin(9)
  && new Retry(DEFAULT).bounds({ late: 0, steps: 9, trustingAttempts: [1, 5000] }).endsWithin(9);
loop.call(async (number, signal) => ({ number, signal, ends }), { signal: new AbortController().signal }).then(
  ({ number }) => number.toFixed());
// @ts-expect-error: a text is needed
new Schedule(7);
// @ts-expect-error: what an attempt returns has a type
loop.call(() => 7).then((found) => found.length);
// @ts-expect-error: an option is misspelt
new Retry(text, { jiter: 1 });
// @ts-expect-error: how late timers may be is said
loop.bounds({});
// @ts-expect-error: the text is that of the program
schedule.text = text;
// @ts-expect-error: the library makes bounds
new Bounds();
// @ts-expect-error: and faults
new Fault('recurs(3)');

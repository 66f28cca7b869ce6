/**
 * The error of a call. The number and the place are those of zsched.h, and the message has the library's
 * words. For a wrong text a hint, the text and a mark below its byte follow.
 */
export class Fault extends Error {
  private constructor();
  readonly number: number;
  /** The byte of the text, or 0. */
  readonly at: number;
  /** The text that is no schedule, or empty. */
  readonly text: string;
}

/** How `plan` plans a wait. Milliseconds are rounded up. */
export interface Turn {
  /** The least milliseconds to wait, such as a server's Retry-After: 0 without it. */
  least?: number;
  /** The milliseconds up to which `least` counts: 3600000 without it. */
  longest?: number;
  /** The share of the wait that jitter may take off, from 0 to 1, in whole percent: 0 without it. */
  jitter?: number;
  /** How much of that it takes off, a fraction of 2^32: 32 bits, at random without it. */
  draw?: number;
}

/**
 * A schedule: a program, compiled from a text, and the state of its steps. A step takes no longer
 * after many steps than after one. A number that isn't in range is a RangeError, and what is no number
 * a TypeError; both change nothing. Times are in milliseconds; above 2^53 - 1 they are Infinity.
 */
export class Schedule {
  /**
   * Makes the schedule of a text, before its first step, or with a state that `state` returned; of a
   * Schedule a copy, which shares its program. Throws a Fault if the text is no schedule or its
   * output has a list, and for the words of another schedule's state (number 9) or another version's
   * (18). Words that were changed after the first two aren't detected.
   */
  constructor(text: string | Uint8Array | Schedule, state?: ArrayLike<bigint> | null);
  get text(): string;
  /**
   * The words of the state. Their number depends on the text alone; the first is a version, and the
   * second identifies the schedule.
   */
  get state(): BigUint64Array;
  /** Returns a schedule of the same program before its first step. */
  begin(): Schedule;
  /**
   * Makes one more step, at a whole moment. Returns the moment at which the next attempt may begin, or
   * null if the schedule is done. Throws a Fault if the moment is below that of the last step; the
   * schedule is then unchanged.
   */
  after(moment: bigint | number, input?: bigint | number): number | null;
  /**
   * Makes one more step at the end of a loop's attempt. Returns when the next one begins, or null if
   * the loop gives up. `began`, `ended` and the result count from the begin of the first attempt, by any
   * clock, to the nanosecond; negative ones count as 0, and a clock that falls as one that doesn't move.
   * So each loop has at most the attempts that Bounds say for such a driver. Only after null, or
   * after `after`, may a clock that falls be a Fault.
   */
  plan(began: number, ended: number, input?: bigint | number, turn?: Turn): number | null;
  /** Returns the text of the last step's output. Throws a Fault if no step was made yet. */
  output(): string;
}

/**
 * What a schedule does for every input; times in milliseconds. What has no bound, or one above 2^53 - 1,
 * is Infinity.
 */
export class Bounds {
  private constructor();
  /** The number of attempts that were examined. */
  readonly seen: number;
  /** The first attempt that can be the last one. */
  readonly least: number;
  /** The number of attempts at most. */
  readonly most: number;
  /** The longest wait after the attempts that were examined. */
  readonly longest: number;
  /** All waits together at most. */
  readonly total: number;
  /** When each attempt ends at most, from the begin of the first. */
  readonly longestRun: number;
  /** Whether there are at most `most` attempts, and `total` ms of waits together. */
  within(most: number, total: number): boolean;
  /** Whether each call ends within `run` ms, attempts and waits together. */
  endsWithin(run: number): boolean;
}

/** What a loop of another kind does with a schedule. Milliseconds are rounded up, the least of an attempt down. */
export interface Driver {
  /** The least and the most milliseconds of an attempt: 1 and Infinity without it. */
  attempt?: readonly [least?: number, most?: number];
  /** The share of each wait that jitter may take off, from 0 to 1, in whole percent: 0 without it. */
  jitter?: number;
  /** The longest least wait that a service may ask for, in milliseconds: 0 without it. */
  asked?: number;
  /** How many milliseconds late an attempt may begin: 0 without it; Infinity is any lateness. */
  late?: number;
}

/**
 * Returns the Bounds of a text alone, which may have collectAll, with a loop of another kind; those of a
 * Retry are its `bounds`. At most the first `steps` attempts are examined: 1000 without a number. The
 * bounds hold for all drivers that do what `driver` says, if no moment is above 999999999999999. Throws a
 * Fault if the text is no schedule, or if no driver does that.
 */
export function bounds(schedule: string | Uint8Array | Schedule, steps?: number, driver?: Driver): Bounds;

/**
 * Tokens that many calls share, as in gRPC's retry throttling. A failed attempt takes a token, and one
 * that doesn't fail adds the ratio, up to the number of tokens at first. A retry follows only while
 * more than half of that number are there; else the call gives up, as if its schedule were done.
 */
export class Budget {
  /** Makes a budget with all its tokens: 10, and the ratio 0.1, without numbers. */
  constructor(tokens?: number, ratio?: number);
  /** The tokens that are there. */
  get tokens(): number;
  /** Adds the ratio after an attempt that didn't fail. */
  add(): void;
  /** Takes a token after a failed attempt. Returns whether a retry may follow. */
  take(): boolean;
}

/** The error of a retry whose signal was aborted. Its `cause` is the signal's reason. */
export class Aborted extends Error {
  private constructor();
  readonly name: 'AbortError';
  readonly code: 'ABORT_ERR';
  /** The error of the last attempt, or undefined if there was none. */
  readonly lastError: unknown;
}

/** What a Retry reads and sleeps by, in milliseconds from any start. */
export interface Clock {
  /** Returns the time. */
  now(): number;
  /** Resolves after a time, or when the signal is aborted. */
  sleep(wait: number, signal?: AbortSignal): Promise<void>;
}

/** A Clock for tests: nothing sleeps, and its time moves by each wait. So a Retry decides as in production. */
export class TestClock implements Clock {
  now(): number;
  sleep(wait: number): Promise<void>;
  /** Moves the clock, as an attempt that takes some time does. */
  advance(millis: number): void;
}

/** An attempt that ended, or the end of a call whose signal was aborted before an attempt. */
export interface RetryEvent {
  /** The name of the Retry. */
  name: string | undefined;
  /** The number of the attempt, from 1; 0 if there was none. */
  number: number;
  /** Its error, or null. */
  error: any;
  /** The milliseconds from the begin of the first attempt to the end of this one. */
  elapsed: number;
  /** The milliseconds until the next attempt, or null if the call ends. */
  wait: number | null;
  /** Why the call ended, or null before a wait. */
  why: 'succeeded' | 'gave up' | 'deadline' | 'cancelled' | 'budget' | 'not retried' | null;
}

/** Options of a Retry. After a failed attempt its hooks are called in this order. */
export interface RetryOptions {
  /** The name in events. */
  name?: string;
  /** Whether an error is retried: each without it. If not, it is thrown, and takes no token. */
  shouldRetry?: (failed: { error: any; number: number }) => boolean | Promise<boolean>;
  /**
   * Returns the schedule's input of an error: 0 without it. If it throws, or returns no whole number
   * from 0 up to 2^64 - 1, the error is thrown, and what was wrong is its `notTriedAgain`, if the
   * error is an Error. No token is taken.
   */
  inputOf?: (error: any) => bigint | number;
  /**
   * Returns the least milliseconds to wait after an error, such as `retryAfterOf` a header. If it throws,
   * or returns no number, the error is thrown as with `inputOf`.
   */
  retryAfter?: (error: any) => number | null | undefined;
  /** The longest of these waits, 3600000 without it: a longer one lasts as long. If it is 0, none counts. */
  retryAfterMost?: number;
  /** The budget that this retry shares with others. */
  budget?: Budget;
  /**
   * The milliseconds from the begin of the first attempt within which the last one begins. A call gives
   * up at once if the next attempt can't begin by then.
   */
  deadline?: number;
  /**
   * Is called and awaited before each wait, and when a call ends. If it throws, the call ends so; the
   * cause is the attempt's error.
   */
  onEvent?: (event: RetryEvent) => void | Promise<void>;
  /**
   * Shortens each wait by a random part, of at most this share, from 0 to 1, in whole percent: 0 without
   * it, and 1 without a schedule.
   */
  jitter?: number;
  /**
   * The milliseconds after which the signal of an attempt is aborted, with a TimeoutError as its
   * reason. The attempt has to heed it: no other begins before it ends.
   */
  attemptMost?: number;
  /** The clock: that of Node without one. */
  clock?: Clock;
}

/** The schedule of a Retry without one. */
export const DEFAULT: string;

/**
 * A loop of attempts. It has no state, so any number of calls may share it. A misspelt option, or one that
 * no retry can have, is an error.
 */
export class Retry {
  constructor(schedule?: string | Uint8Array | Schedule, options?: RetryOptions);
  /** The clock of later calls: a test sets a TestClock. */
  clock: Clock | undefined;
  /**
   * Retries until an attempt, which may be asynchronous, doesn't throw, and waits between two. It gives
   * up when the schedule is done or the budget has too few tokens, and throws the last error. If the
   * signal is aborted, it throws an Aborted; attempts get the signal. An attempt that returns a generator
   * is a TypeError. A wait of 0 lets the event loop turn too.
   *
   * Each attempt begins when `plan` says, by performance.now, or later. So `bounds` hold of each call.
   */
  call<T>(
    attempt: (number: number, signal: AbortSignal | undefined) => T | Promise<T>,
    options?: { signal?: AbortSignal },
  ): Promise<T>;
  /**
   * Returns what each call does at most, for every error, if timers end at most `late` ms late (Infinity:
   * any lateness). Bounds follow from the options; with a budget or a deadline the first attempt can be the
   * last one. The end has a bound with `attemptMost`, if attempts heed their signal, or with
   * `trustingAttempts`: the least and most milliseconds that attempts are trusted to take.
   */
  bounds(guard: { late: number; steps?: number; trustingAttempts?: readonly [number, number] }): Bounds;
}

/**
 * Returns how many milliseconds a header Retry-After asks to wait: seconds, or an HTTP date, which counts
 * from `now`, and is 0 if it has passed. Anything else is null.
 */
export function retryAfterOf(header: string | null | undefined, now?: number): number | null;

/** Returns the version of the library as one number: 1000000 * major + 1000 * minor + patch. */
export function version(): number;

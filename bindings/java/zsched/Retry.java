package zsched;

import java.time.Duration;
import java.time.Instant;
import java.time.ZonedDateTime;
import java.time.format.DateTimeFormatter;
import java.time.format.DateTimeParseException;
import java.time.temporal.ChronoUnit;
import java.util.Objects;
import java.util.Optional;
import java.util.concurrent.CancellationException;
import java.util.concurrent.CompletableFuture;
import java.util.concurrent.CompletionException;
import java.util.concurrent.CompletionStage;
import java.util.concurrent.Executor;
import java.util.concurrent.Future;
import java.util.concurrent.TimeUnit;
import java.util.concurrent.TimeoutException;
import java.util.function.BooleanSupplier;
import java.util.function.Consumer;
import java.util.function.Function;
import java.util.function.Predicate;
import java.util.function.Supplier;
import java.util.function.ToLongFunction;

/**
 * A retry by a proved schedule: {@link #call} sleeps on the calling thread, {@link #callAsync} blocks none. Its text is
 * compiled once. Its options return a changed copy, so threads may share it.
 *
 * <p>The proved {@link Schedule#plan} returns when each attempt begins. So no call makes more attempts than
 * {@link #bounds} says, whatever the clock does. A call that doesn't fail steps no schedule.
 *
 * <p>A failed attempt is judged in this order: {@link #on}; an interrupt or a cancel, which ends the call;
 * {@link #inputOf}; {@link #retryAfter}; a token of the {@link #budget}; the schedule; the {@link #deadline};
 * {@link #onEvent}. What a function or listener of these throws ends the retry: the attempt's error is thrown, which
 * suppresses it.
 */
public final class Retry implements Cloneable {
    /** The policy of {@link #of()}, which has full jitter: a jitter of 1. */
    public static final String DEFAULT = "(exponential(100) && recurs(5))";

    /** Why a call ended; its text is in lower case: "gave up". */
    public enum Why {
        /** The last attempt has a value. */
        SUCCEEDED,
        /** The schedule is done. */
        GAVE_UP,
        /** The next attempt can't begin before the deadline. */
        DEADLINE,
        /** The thread was interrupted, or the future was cancelled or completed. */
        CANCELLED,
        /** The budget allows no retry. */
        BUDGET,
        /** The error isn't one that is retried. */
        NOT_RETRIED;

        @Override
        public String toString() { return name().toLowerCase(java.util.Locale.ROOT).replace('_', ' '); }
    }

    /**
     * What happened to a call: an attempt failed and a wait follows, or the call ended.
     *
     * @param number the number of the attempt, from 1; 0 if the call was cancelled before
     * @param error its error, or null
     * @param elapsed the time from the begin of the first attempt
     * @param delay the time from the end of the attempt to the begin of the next one, or null if none follows
     * @param name what {@link #name} set
     * @param why why the call ended, or null before a wait
     */
    public record Event(long number, Exception error, Duration elapsed, Duration delay, String name, Why why) { }

    /** An attempt, with the checked errors of its own. */
    @FunctionalInterface
    public interface Attempt<T, E extends Exception> {
        /** Returns a value, or throws an error. */
        T call() throws E, InterruptedException;
    }

    /** The error of an attempt whose result is retried ({@link #retryOnResult}). It has no stack trace. */
    public static final class BadResult extends RuntimeException {
        private static final long serialVersionUID = 1;
        private final transient Object result;

        private BadResult(Object result) {
            super("a result that is retried", null, true, false);
            this.result = result;
        }

        /** Returns the result. */
        public Object result() { return result; }
    }

    private static final Duration FOREVER = ChronoUnit.FOREVER.getDuration();
    private static final int REPEATED = 100;
    private static final Clock SYSTEM = new Clock() {
        @Override
        public long nanos() { return System.nanoTime(); }

        @Override
        public void sleep(Duration time) throws InterruptedException {
            Thread.sleep(TimeUnit.NANOSECONDS.convert(time) / 1_000_000 + 1);
        }
    };

    private final Schedule schedule;
    private ToLongFunction<Exception> inputOf = error -> 0;
    private Predicate<Exception> isWanted = Retry::isWanted;
    private Predicate<Object> isBad = result -> false;
    private Consumer<Event> onEvent;
    private Function<Exception, Duration> retryAfter;
    private Duration retryAfterMost = Duration.ofHours(1);
    private Duration attemptMost;
    private Duration deadline = FOREVER;
    private Clock clock = SYSTEM;
    private double jitter;
    private Budget budget;
    private String name = "";

    private Retry(Schedule schedule) { this.schedule = schedule; }

    /** Returns the retry of the default policy: at most 6 attempts, with waits of at most 3.1 s. */
    public static Retry of() { return of(DEFAULT).jitter(1); }

    /** Returns the retry of a schedule's text. Throws {@link Schedule.Fault}. */
    public static Retry of(String text) { return new Retry(new Schedule(text)); }

    /** Returns the retry of a schedule, of which each call {@link Schedule#begin begins} one. */
    public static Retry of(Schedule schedule) { return new Retry(Objects.requireNonNull(schedule)); }

    /**
     * Returns how long a header Retry-After asks to wait: its seconds, or the time until its date, 0 if that is over.
     * Anything else is null.
     */
    public static Duration retryAfterOf(String header, Instant now) {
        try {
            if (header != null && header.strip().matches("[0-9]+")) {
                return Duration.ofSeconds(Long.parseLong(header.strip()));
            }
            Instant date = ZonedDateTime.parse(String.valueOf(header).strip(), DateTimeFormatter.RFC_1123_DATE_TIME).toInstant();
            Duration rest = Duration.between(now, date);
            return rest.isNegative() ? Duration.ZERO : rest;
        } catch (NumberFormatException | DateTimeParseException other) {
            return null;
        }
    }

    /** Returns whether an error is retried if no {@link #on} is set: faults of the program aren't. */
    private static boolean isWanted(Exception error) {
        boolean isOfProgram = error instanceof RuntimeException && error.getClass() != RuntimeException.class;
        return !(isOfProgram && error.getClass().getName().matches("java\\.lang\\.[^.]*"));
    }

    /** Throws IllegalArgumentException if a time is below some nanoseconds, 0 or 1. */
    static void check(Duration time, String what, long least) {
        if (time.compareTo(Duration.ofNanos(least)) < 0) {
            throw new IllegalArgumentException("zsched: " + what + " of " + time + " isn't " + (least == 0 ? "0 or above" : "above 0"));
        }
    }

    private Retry with(Consumer<Retry> change) {
        try {
            Retry changed = (Retry) clone();
            change.accept(changed);
            return changed;
        } catch (CloneNotSupportedException never) {
            throw new AssertionError(never);
        }
    }

    /** Sets what the schedule's input of an error is: 0 without it. One below 0 ends the retry as a throw does. */
    public Retry inputOf(ToLongFunction<Exception> inputOf) {
        return with(it -> it.inputOf = inputOf);
    }

    /**
     * Sets which errors are retried, such as {@code IOException.class::isInstance}. Without it that is every Exception but
     * the faults of a program: the RuntimeExceptions of java.lang, such as a NullPointerException, without RuntimeException
     * itself. Any other error is thrown, and so is an InterruptedException.
     */
    public Retry on(Predicate<Exception> isWanted) { return with(it -> it.isWanted = isWanted); }

    /**
     * Sets which results are retried: none without it. Functions and listeners get a
     * {@link BadResult} in place of an error. When the schedule is done, the last result is returned.
     */
    public Retry retryOnResult(Predicate<Object> isBad) { return with(it -> it.isBad = isBad); }

    /**
     * Adds a listener, which is called before each wait, and when the call ends. What it throws for a call that succeeded
     * is thrown.
     */
    public Retry onEvent(Consumer<Event> listener) {
        return with(it -> it.onEvent = onEvent == null ? listener : onEvent.andThen(listener));
    }

    /** Sets the name of the call that events have: empty without it. */
    public Retry name(String name) { return with(it -> it.name = name); }

    /**
     * Sets the clock by which calls wait and sleep, such as a {@link TestClock}: a {@link #callAsync} then sleeps by it on
     * the thread on which its attempt ended. If it falls, it counts as if it stood still.
     */
    public Retry clock(Clock clock) { return with(it -> it.clock = Objects.requireNonNull(clock)); }

    /** Shortens each wait by a random part of it, of at most this share, in whole percent: 0 to 1, else it throws. */
    public Retry jitter(double share) {
        Schedule.percent(share);
        return with(it -> it.jitter = share);
    }

    /** Sets how long to wait at least after an error, such as a server's Retry-After; null is no limit. */
    public Retry retryAfter(Function<Exception, Duration> least) {
        return with(it -> it.retryAfter = least);
    }

    /** Sets the longest wait of {@link #retryAfter}: an hour without it. A longer one lasts as long. Throws below 0. */
    public Retry retryAfterMost(Duration most) {
        check(most, "a longest least wait", 0);
        return with(it -> it.retryAfterMost = most);
    }

    /**
     * Sets how long an attempt may take: {@link #call} interrupts a longer one, and {@link #callAsync}
     * cancels its future. The error is then a TimeoutException, if the attempt ends by that. Throws unless it is above 0.
     */
    public Retry attemptMost(Duration most) {
        check(most, "a limit of an attempt", 1);
        return with(it -> it.attemptMost = most);
    }

    /**
     * Sets how long after the begin of the first attempt the last one may begin. A call gives up at once if the next
     * attempt can't begin by then. Throws below 0.
     */
    public Retry deadline(Duration deadline) {
        check(deadline, "a deadline", 0);
        return with(it -> it.deadline = deadline);
    }

    /** Sets the budget that this retry shares with others: no limit without it. */
    public Retry budget(Budget budget) { return with(it -> it.budget = budget); }

    /**
     * Returns the bounds of each call. They have an end only if {@link #attemptMost} limits attempts that heed its interrupt
     * or cancel, of which the timer may be late too, or if the guard trusts attempts.
     */
    public Schedule.Bounds bounds(Guard guard) {
        Duration limit = attemptMost == null ? null : sum(attemptMost, guard.late());
        boolean isTrusted = guard.longest() != null && (limit == null || guard.longest().compareTo(limit) < 0);
        Duration longest = isTrusted ? guard.longest() : limit;
        Duration asked = retryAfter == null ? Duration.ZERO : retryAfterMost;
        Schedule.Bounds found = Schedule.bounds(schedule.text(), guard.steps(), guard, longest, jitter, asked);
        boolean hasDeadline = !deadline.equals(FOREVER);
        long least = budget != null || hasDeadline ? 1 : found.least();
        if (!hasDeadline) {
            return new Schedule.Bounds(found.seen(), least, found.most(), found.longest(), found.total(), found.longestRun());
        }
        // Until the last attempt begins, and until it ends.
        Duration last = sum(deadline, guard.late());
        Optional<Duration> run = longest == null ? Optional.empty() : Optional.of(sum(last, longest));
        return new Schedule.Bounds(found.seen(), least, found.most(), least(found.longest(), last),
            Optional.of(found.total().map(it -> least(it, last)).orElse(last)),
            found.longestRun().map(it -> least(it, run.orElse(it))).or(() -> run));
    }

    private static Duration least(Duration one, Duration other) { return one.compareTo(other) < 0 ? one : other; }

    private static Duration sum(Duration one, Duration other) {
        return one.compareTo(FOREVER.minus(other)) < 0 ? one.plus(other) : FOREVER;
    }

    /**
     * Calls an attempt until there is a value or no other follows, and sleeps between two. At the end it throws the last
     * error, which is a TimeoutException if {@link #attemptMost} ended the attempt. If it is interrupted in a sleep, or
     * when an attempt has failed, the InterruptedException suppresses the last error; if it is before, no attempt is made.
     * Throws IllegalArgumentException if the value is a future.
     */
    public <T, E extends Exception> T call(Attempt<T, E> attempt) throws E, InterruptedException, TimeoutException {
        Objects.requireNonNull(attempt, "attempt");
        Run run = new Run(Thread::interrupted);
        if (Thread.interrupted()) {
            run.say(null, null, Why.CANCELLED);
            throw new InterruptedException();
        }
        while (true) {
            run.begin();
            T value = null;
            Exception error = null;
            try {
                value = attemptMost == null ? attempt.call() : limited(attempt);
            } catch (Exception thrown) {
                error = thrown;
            }
            if (value instanceof Future || value instanceof CompletionStage) {
                throw new IllegalArgumentException(
                    "zsched: the attempt returned a future, which may still fail: use callAsync");
            }
            try {
                if (!run.<E>isRetried(value, error)) {
                    return value;
                }
                run.sleep();
            } catch (InterruptedException interrupted) {
                run.say(run.error, null, Why.CANCELLED);
                if (interrupted != error) {
                    interrupted.addSuppressed(run.error);
                }
                throw interrupted;
            }
        }
    }

    /**
     * Starts an attempt until one completes with a value or no other follows, and completes the future with the value or the
     * last error. The executor starts the attempts after the first one; if it is shut down, the next one ends the call. A
     * {@link CompletionException} counts as its cause. If the future is cancelled, or completed otherwise, the attempt or
     * the wait is cancelled, and none follows. A supplier that returns null is a NullPointerException.
     */
    public <T> CompletableFuture<T> callAsync(Supplier<? extends CompletionStage<T>> attempt, Executor executor) {
        Objects.requireNonNull(attempt, "attempt");
        CompletableFuture<T> ended = new CompletableFuture<>();
        Run run = new Run(ended::isDone);
        start(run, attempt, executor, ended);
        ended.whenComplete((value, error) -> {
            run.pending.cancel(true);
            run.say(null, null, Why.CANCELLED);
        });
        return ended;
    }

    /** Makes an attempt, and interrupts it when its time is over. */
    private <T, E extends Exception> T limited(Attempt<T, E> attempt) throws E, InterruptedException, TimeoutException {
        CompletableFuture<Void> limit = new CompletableFuture<>();
        limit.orTimeout(TimeUnit.NANOSECONDS.convert(attemptMost), TimeUnit.NANOSECONDS);
        Thread caller = Thread.currentThread();
        CompletableFuture<Void> interrupting = limit.exceptionally(over -> {
            caller.interrupt();
            return null;
        });
        try {
            return attempt.call();
        } catch (InterruptedException interrupted) {
            if (limit.isDone()) {
                throw late();
            }
            throw interrupted;
        } finally {
            if (!limit.complete(null)) {
                // The interrupt came, or comes, so that none remains.
                interrupting.join();
                Thread.interrupted();
            }
        }
    }

    private TimeoutException late() {
        return new TimeoutException("zsched: the attempt took longer than " + attemptMost);
    }

    private <T> void start(Run run, Supplier<? extends CompletionStage<T>> attempt, Executor executor,
            CompletableFuture<T> ended) {
        if (ended.isDone()) {
            return;
        }
        run.begin();
        CompletionStage<T> begun;
        try {
            begun = attempt.get();
            run.limit(begun, executor);
        } catch (Throwable thrown) {
            begun = CompletableFuture.failedFuture(thrown);
        }
        CompletionStage<T> started = begun;
        if (started == null) {
            run.fail(ended, new NullPointerException("zsched: the attempt returned null in place of a CompletionStage"), null);
            return;
        }
        if (started instanceof Future<?> future) {
            run.follow(future, ended);
        }
        started.whenComplete((value, thrown) -> {
            Throwable error = run.end(started, thrown);
            if (ended.isDone()) {
                return;
            }
            try {
                if (error != null && !(error instanceof Exception)) {
                    throw error;
                }
                if (!run.isRetried(value, (Exception) error)) {
                    ended.complete(value);
                } else {
                    run.startLater(() -> start(run, attempt, executor, ended), executor, ended);
                }
            } catch (Throwable last) {
                run.fail(ended, last, error);
            }
        });
    }

    /** One call: its schedule, last error, number of attempts, and when the last one began and the next one may. */
    private final class Run {
        private final BooleanSupplier isCancelled;
        private long start = clock.nanos();
        private long last; // the greatest time since the start that the clock showed
        private Schedule state; // begins at the first failure; most calls have none
        private Exception error;
        private long number;
        private Duration began;
        private Duration next;
        private volatile Future<?> pending = CompletableFuture.completedFuture(null);
        private volatile Future<?> limit = pending;
        private volatile CompletionStage<?> late; // the attempt that was cancelled when its time was over
        private int sleeps;
        private boolean hasEnded;

        Run(BooleanSupplier isCancelled) { this.isCancelled = isCancelled; }

        /** Returns the time since the start. A clock that falls counts as one that stood still. */
        private Duration elapsed() {
            long now = clock.nanos() - start;
            start -= Math.max(0, last - now);
            last = Math.max(last, now);
            return Duration.ofNanos(last);
        }

        /** Notes when an attempt begins. */
        void begin() {
            began = elapsed();
            number++;
            sleeps = 0;
        }

        /** Returns the nanoseconds until the next attempt may begin. Throws if too many sleeps ended early. */
        private long rest() {
            Duration rest = next.minus(elapsed());
            if (rest.compareTo(Duration.ZERO) > 0 && sleeps++ > REPEATED) {
                throw new IllegalStateException(
                    "zsched: 100 sleeps ended early: in tests set Retry.clock, to a TestClock say", error);
            }
            return rest.isNegative() ? 0 : TimeUnit.NANOSECONDS.convert(rest);
        }

        /** Sleeps until the next attempt may begin. */
        void sleep() throws InterruptedException {
            for (long rest = rest(); rest > 0; rest = rest()) {
                clock.sleep(Duration.ofNanos(rest));
            }
        }

        /** Starts the next attempt when it may begin, by a timer of Java, since one of an executor may be dropped. */
        void startLater(Runnable attempt, Executor executor, CompletableFuture<?> ended) throws InterruptedException {
            if (clock != SYSTEM) {
                sleep();
            }
            CompletableFuture<Void> wait = timer(rest());
            follow(wait, ended);
            wait.thenRunAsync(attempt, executor).whenComplete((none, fault) -> {
                if (fault != null) {
                    fail(ended, fault instanceof CompletionException ? fault.getCause() : fault, error);
                }
            });
        }

        /** Ends a future with a fault, which suppresses the last error. */
        void fail(CompletableFuture<?> ended, Throwable fault, Throwable error) {
            synchronized (this) {
                hasEnded |= !ended.isDone();
            }
            if (error != null && fault != error) {
                fault.addSuppressed(error);
            }
            ended.completeExceptionally(fault);
        }

        private CompletableFuture<Void> timer(long nanos) {
            return new CompletableFuture<Void>().completeOnTimeout(null, nanos, TimeUnit.NANOSECONDS);
        }

        /** Cancels an attempt when its time is over, unless it ends before. */
        void limit(CompletionStage<?> attempt, Executor executor) {
            if (attemptMost != null && attempt != null) {
                CompletableFuture<Void> over = timer(TimeUnit.NANOSECONDS.convert(attemptMost));
                Runnable cut = () -> {
                    late = attempt;
                    attempt.toCompletableFuture().cancel(true);
                };
                limit = over;
                over.thenRunAsync(cut, executor).exceptionally(fault -> {
                    if (!over.isCancelled()) {
                        cut.run();
                    }
                    return null;
                });
            }
        }

        /** Ends the limit of an attempt. Returns the attempt's error, if it has one. */
        Throwable end(CompletionStage<?> attempt, Throwable thrown) {
            limit.cancel(false);
            boolean isWrapped = thrown instanceof CompletionException && thrown.getCause() != null;
            Throwable error = isWrapped ? thrown.getCause() : thrown;
            return late == attempt && error instanceof CancellationException ? late() : error;
        }

        /** Notes what ends if the retry's future is cancelled: an attempt, or a wait. */
        void follow(Future<?> next, CompletableFuture<?> ended) {
            pending = next;
            if (ended.isDone()) {
                next.cancel(true);
            }
        }

        /** Calls the listeners. Of a call's ends only the first one is told. */
        void say(Exception error, Duration delay, Why why) {
            if (onEvent == null) {
                return;
            }
            synchronized (this) {
                if (hasEnded) {
                    return;
                }
                hasEnded = why != null;
            }
            onEvent.accept(new Event(number, error, Duration.ofNanos(last), delay, name, why));
        }

        /** Ends an attempt. Returns whether it is retried; else its value is returned, or throws its error. */
        @SuppressWarnings("unchecked") // what is thrown is what the attempt threw, or a TimeoutException or BadResult
        <E extends Exception> boolean isRetried(Object value, Exception thrown) throws E, InterruptedException {
            if (thrown == null && !isBad.test(value)) {
                if (budget != null) {
                    budget.add();
                }
                if (onEvent != null) {
                    elapsed();
                    say(null, null, Why.SUCCEEDED);
                }
                return false;
            }
            Duration ended = elapsed();
            error = thrown == null ? new BadResult(value) : thrown;
            try {
                Why why = judge(ended, thrown);
                say(error, why == null ? next.minus(ended) : null, why);
                if (why == Why.CANCELLED && !(thrown instanceof InterruptedException)) {
                    throw new InterruptedException();
                }
                if (why != null && thrown != null) {
                    throw (E) thrown;
                }
                return why == null;
            } catch (InterruptedException interrupted) {
                throw interrupted;
            } catch (Throwable fault) {
                if (fault != error) {
                    error.addSuppressed(fault);
                }
                throw (E) error;
            }
        }

        /** Returns why no attempt follows, or null and notes when the next one may begin. */
        private Why judge(Duration ended, Exception thrown) {
            if (thrown instanceof InterruptedException) {
                return Why.CANCELLED;
            }
            if (thrown != null && !isWanted.test(thrown)) {
                return Why.NOT_RETRIED;
            }
            if (isCancelled.getAsBoolean()) {
                return Why.CANCELLED;
            }
            long input = inputOf.applyAsLong(error);
            if (input < 0) {
                throw new IllegalArgumentException("zsched: the input " + input + " is below 0");
            }
            Duration asked = retryAfter == null ? null : retryAfter.apply(error);
            if (budget != null && !budget.take()) {
                return Why.BUDGET;
            }
            if (state == null) {
                state = schedule.begin();
            }
            next = state.plan(began, ended, input, Objects.requireNonNullElse(asked, Duration.ZERO), retryAfterMost, jitter)
                .orElse(null);
            return next == null ? Why.GAVE_UP : next.compareTo(deadline) > 0 ? Why.DEADLINE : null;
        }
    }
}

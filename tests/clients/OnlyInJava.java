import java.io.IOException;
import java.io.UncheckedIOException;
import java.time.Duration;
import java.time.Instant;
import java.time.temporal.ChronoUnit;
import java.util.ArrayList;
import java.util.Iterator;
import java.util.List;
import java.util.Optional;
import java.util.OptionalLong;
import java.util.concurrent.Callable;
import java.util.concurrent.CompletableFuture;
import java.util.concurrent.CompletionException;
import java.util.concurrent.ExecutionException;
import java.util.concurrent.Executors;
import java.util.concurrent.FutureTask;
import java.util.concurrent.RejectedExecutionException;
import java.util.concurrent.ScheduledExecutorService;
import java.util.concurrent.TimeUnit;
import java.util.concurrent.TimeoutException;
import java.util.concurrent.atomic.AtomicInteger;
import java.util.function.Consumer;
import java.util.function.Function;
import java.util.function.Supplier;
import java.util.function.UnaryOperator;
import zsched.Budget;
import zsched.Clock;
import zsched.Guard;
import zsched.Retry;
import zsched.Schedule;
import zsched.TestClock;

/** Tests what only the binding for Java has. Exits with status 1 at the first difference. */
public final class OnlyInJava {
    private static final Exception BUSY = new Exception("busy");

    private static void same(Object found, Object wanted) {
        if (!found.equals(wanted)) {
            throw new AssertionError(found + " in place of " + wanted);
        }
    }

    private static String fail() throws Exception {
        throw new Exception("busy", BUSY);
    }

    /** An interrupt keeps the last error and takes no token; one before a call makes no attempt. */
    private static void interrupt() throws Exception {
        List<Object> told = new ArrayList<>();
        Budget budget = new Budget(10, 0.5);
        Retry retry = Retry.of("spaced(100000)").budget(budget).onEvent(it -> told.add(it.number() + " " + it.why()));
        Retry asked = retry.on(error -> Thread.interrupted());
        Retry.Attempt<String, Exception> interrupted = () -> {
            Thread.currentThread().interrupt();
            return fail();
        };
        Exception error = thrown(() -> retry.call(interrupted));
        same(List.of(error.getClass(), error.getSuppressed()[0].getMessage(), Thread.interrupted(), budget.tokens()),
            List.of(InterruptedException.class, "busy", false, 10.0));
        error = thrown(() -> asked.onEvent(it -> Thread.currentThread().interrupt()).call(interrupted));
        same(List.of(error.getClass(), error.getSuppressed()[0].getMessage(), Thread.interrupted(), budget.tokens()),
            List.of(InterruptedException.class, "busy", true, 9.0));
        Thread.currentThread().interrupt();
        same(thrown(() -> retry.call(OnlyInJava::fail)).getClass(), InterruptedException.class);
        same(thrown(() -> retry.on(it -> false).call(interrupted)).getMessage(), "busy");
        same(Thread.interrupted(), true);
        same(thrown(() -> retry.call(() -> { throw new InterruptedException(); })).getClass(), InterruptedException.class);
        same(told, List.of("1 cancelled", "1 null", "1 cancelled", "0 cancelled", "1 not retried", "1 cancelled"));
    }

    /** What an attempt, or a future's completion, throws. */
    private static Exception thrown(Callable<?> attempt) {
        try {
            throw new AssertionError(attempt.call() + " in place of an error");
        } catch (ExecutionException ended) {
            return (Exception) ended.getCause();
        } catch (Exception error) {
            return error;
        }
    }

    private static long hook() {
        throw new IllegalStateException("hook");
    }

    /** Throws any error, as functions of Scala and Kotlin do. */
    @SuppressWarnings("unchecked")
    private static <E extends Exception> long sneak(Exception error) throws E {
        throw (E) error;
    }

    /** A function or listener that throws hides no error. */
    private static void hooks() {
        ScheduledExecutorService scheduler = Executors.newScheduledThreadPool(1);
        List<UnaryOperator<Retry>> hooks = List.of(
            retry -> retry.inputOf(error -> hook()), retry -> retry.on(error -> hook() == 0), retry -> retry.onEvent(it -> hook()),
            retry -> retry.retryAfter(error -> Duration.ofNanos(hook())), retry -> retry.onEvent(it -> same(it.name(), "hook")),
            retry -> retry.inputOf(error -> -1), retry -> retry.inputOf(error -> OnlyInJava.<RuntimeException>sneak(new Exception("hook"))));
        for (UnaryOperator<Retry> hook : hooks) {
            Budget budget = new Budget(10, 0.5);
            boolean isLast = hooks.indexOf(hook) == 2 || hooks.indexOf(hook) == 4;
            Retry retry = hook.apply(Retry.of("recurs(9)").budget(budget));
            for (Exception error : List.of(thrown(() -> retry.call(OnlyInJava::fail)),
                    thrown(() -> retry.callAsync(() -> CompletableFuture.failedFuture(new Exception("busy")), scheduler).get(60, TimeUnit.SECONDS)))) {
                String why = error.getSuppressed()[0].getMessage();
                same(List.of(error.getMessage(), why.endsWith("hook") || why.equals("zsched: the input -1 is below 0"),
                    error.getSuppressed().length), List.of("busy", true, 1));
            }
            same(budget.tokens(), isLast ? 8.0 : 10.0);
        }
        scheduler.shutdown();
    }

    /** A future is no value of `call`, and each future of `callAsync` completes. */
    private static void futures() throws Exception {
        for (Object future : List.of(CompletableFuture.completedFuture(1), CompletableFuture.completedStage(1), new FutureTask<>(() -> 1))) {
            same(thrown(() -> Retry.of("recurs(9)").call(() -> future)).toString(),
                "java.lang.IllegalArgumentException: zsched: the attempt returned a future, which may still fail: use callAsync");
        }
        ScheduledExecutorService scheduler = Executors.newScheduledThreadPool(1);
        for (int good : new int[] {0, 1}) {
            int[] attempts = {0};
            same(thrown(() -> Retry.of("forever").callAsync(() -> attempts[0]++ < good ? CompletableFuture.failedFuture(BUSY) : null, scheduler)
                .get(60, TimeUnit.SECONDS)).getMessage(), "zsched: the attempt returned null in place of a CompletionStage");
            same(attempts[0], good + 1);
        }
        Supplier<CompletableFuture<String>> bad = () -> CompletableFuture.completedFuture("bad");
        List<Object> told = new ArrayList<>();
        same(thrown(() -> Retry.of("forever").onEvent(it -> hook()).callAsync(bad, scheduler).get(60, TimeUnit.SECONDS)).getMessage(), "hook");
        same(Retry.of("recurs(1)").retryOnResult("bad"::equals).onEvent(told::add).callAsync(bad, scheduler).get(60, TimeUnit.SECONDS), "bad");
        same(told.size(), 2);
        same(thrown(() -> Retry.of("recurs(1)").callAsync(() -> { throw new RuntimeException("late"); }, scheduler)
            .get(60, TimeUnit.SECONDS)).getMessage(), "late");
        scheduler.shutdown();
        same(thrown(() -> Retry.of("forever").callAsync(() -> CompletableFuture.failedFuture(BUSY), scheduler).get(60, TimeUnit.SECONDS))
            .getSuppressed()[0], BUSY);
    }

    /** A call declares the errors of its attempt, an interrupt and a time that is over, and no others. */
    private static void declared() throws InterruptedException, TimeoutException {
        same(Retry.of().call(() -> "done"), "done");
        Retry retry = Retry.of("recurs(1)");
        try {
            retry.call(() -> { throw new IOException("503"); });
            throw new AssertionError("no error");
        } catch (IOException error) {
            same(error.getMessage(), "503");
        }
        try {
            retry.retryOnResult(result -> true).inputOf(error -> hook()).call(() -> "bad");
            throw new AssertionError("no error");
        } catch (Retry.BadResult error) {
            same(List.of(error.result(), error.getSuppressed()[0].getMessage()), List.of("bad", "hook"));
        }
    }

    /** Results that are retried, each listener, and a clock that only sleeps and attempts advance. */
    private static void results() throws Exception {
        long[] now = {7};
        List<Object> told = new ArrayList<>();
        Retry retry = Retry.of("(exponential(10) && recurs(3)).whileInput(>= 500)").retryOnResult(result -> (int) result >= 400)
            .inputOf(error -> error instanceof Retry.BadResult bad ? (int) bad.result() : 501).on(error -> error == BUSY)
            .onEvent(it -> told.add(it.number() + " " + it.delay())).onEvent(it -> told.add(it.error() == BUSY))
            .clock(clock(now));
        for (List<Integer> wanted : List.of(List.of(503, 0, 200), List.of(503, 429), List.of(503, 503, 503, 503))) {
            Iterator<Integer> results = wanted.iterator();
            same(retry.call(() -> {
                now[0] += 5_000_000;
                int result = results.next();
                if (result == 0) {
                    throw BUSY;
                }
                return result;
            }), wanted.get(wanted.size() - 1));
        }
        same(told, List.of("1 PT0.01S", false, "2 PT0.02S", true, "3 null", false, "1 PT0.01S", false, "2 null", false,
            "1 PT0.01S", false, "2 PT0.02S", false, "3 PT0.04S", false, "4 null", false));
        same(now[0], 7 + 9 * 5_000_000L + 110 * 1_000_000L);
    }

    /** A clock that only a test and sleeps move. */
    private static Clock clock(long[] now) { return clock(now, time -> { }); }

    private static Clock clock(long[] now, Consumer<Duration> told) {
        return new Clock() {
            @Override
            public long nanos() { return now[0]; }

            @Override
            public void sleep(Duration time) {
                told.accept(time);
                now[0] += time.toNanos();
            }
        };
    }

    /** The bounds of a retry hold of each of its runs. */
    private static void early() {
        String text = "(spaced(1000) && elapsed).whileOutput(_2 < 20000)";
        Duration half = Duration.ofMillis(500);
        for (double jitter : new double[] {0, 0.5, 1}) {
            long[] now = {7};
            int[] attempts = {0};
            Retry retry = Retry.of(text).jitter(jitter).clock(clock(now));
            Schedule.Bounds bounds = retry.bounds(Guard.late(Duration.ZERO).trustingAttempts(half, half));
            same(thrown(() -> retry.call(() -> {
                attempts[0]++;
                now[0] += half.toNanos();
                return fail();
            })).getMessage(), "busy");
            same(jitter > 0 || attempts[0] == 15, true);
            same(attempts[0] <= bounds.most().getAsLong() && bounds.endsWithin(bounds.longestRun().get()), true);
            same(now[0] - 7 <= bounds.longestRun().get().toNanos(), true);
        }
    }

    private static final Duration NONE = Duration.ZERO;

    /** Each option that is set on the retry alone changes its bounds. */
    private static void guarded() {
        Retry retry = Retry.of("(spaced(1000) && recurs(3))");
        Guard guard = Guard.late(NONE);
        Schedule.Bounds plain = retry.bounds(guard);
        Duration second = Duration.ofSeconds(1), half = Duration.ofMillis(500), most = Duration.ofMillis(1500);
        same(List.of(plain.most(), plain.longest(), plain.total(), plain.longestRun(), plain.endsWithin(Duration.ofDays(9))),
            List.of(OptionalLong.of(4), second, Optional.of(second.multipliedBy(3)), Optional.empty(), false));
        // Steps at 1, 1002, 2003 and 3004 ms; with jitter at 1, 502, .., 2005 and 2506 ms.
        Retry elapsed = Retry.of("(spaced(1000) && elapsed).whileOutput(_2 < 2500)");
        same(List.of(elapsed.bounds(guard).most(), elapsed.jitter(0.5).bounds(guard).most()),
            List.of(OptionalLong.of(4), OptionalLong.of(6)));
        Retry asked = retry.retryAfter(error -> null);
        same(List.of(asked.bounds(guard).longest(), asked.retryAfterMost(most).bounds(guard).longest()),
            List.of(Duration.ofHours(1), most));
        same(retry.retryAfterMost(most).bounds(guard), plain);
        Retry limited = retry.attemptMost(half);
        Schedule.Bounds found = limited.bounds(guard), late = limited.bounds(Guard.late(Duration.ofMillis(10)));
        same(List.of(found.endsWithin(Duration.ofMillis(5001)), found.endsWithin(Duration.ofMillis(4999)), late.longest(),
            late.endsWithin(found.longestRun().get())), List.of(true, false, Duration.ofMillis(1010), false));
        Schedule.Bounds first = retry.deadline(most).bounds(guard);
        same(List.of(first.longestRun(), first.total(), first.longest(), limited.deadline(most).bounds(guard).longestRun()),
            List.of(Optional.empty(), Optional.of(most), second, Optional.of(Duration.ofSeconds(2))));
        // A budget may end a call after its first attempt, and changes no other bound.
        same(List.of(plain.least(), first.least(), retry.budget(new Budget(10, 0.1)).bounds(guard)), List.of(4L, 1L,
            new Schedule.Bounds(plain.seen(), 1, plain.most(), plain.longest(), plain.total(), plain.longestRun())));
        Schedule.Bounds trusted = retry.bounds(guard.trustingAttempts(NONE, Duration.ofMillis(200)));
        same(List.of(trusted.endsWithin(Duration.ofMillis(3801)), trusted.endsWithin(Duration.ofMillis(3799))), List.of(true, false));
        same(retry.bounds(guard.steps(2)).most(), OptionalLong.empty());
        same(Retry.of("forever").attemptMost(ChronoUnit.FOREVER.getDuration()).deadline(ChronoUnit.FOREVER.getDuration())
            .bounds(Guard.late(ChronoUnit.FOREVER.getDuration())).longestRun(), Optional.empty());
    }

    /** The default policy has the bounds of the page, and jitter. */
    private static void standard() {
        Schedule.Bounds bounds = Retry.of().bounds(Guard.late(NONE).trustingAttempts(NONE, Duration.ofSeconds(5)));
        same(List.of(bounds.most(), bounds.longest(), bounds.total(), bounds.endsWithin(Duration.ofMillis(33_101))),
            List.of(OptionalLong.of(6), Duration.ofMillis(1600), Optional.of(Duration.ofMillis(3100)), true));
        TestClock clock = new TestClock();
        int[] attempts = {0};
        same(thrown(() -> Retry.of().clock(clock).call(() -> {
            attempts[0]++;
            return fail();
        })).getMessage(), "busy");
        same(List.of(attempts[0], clock.nanos() < 3_100_000_000L, Retry.DEFAULT), List.of(6, true, "(exponential(100) && recurs(5))"));
    }

    /** What happens to a call, and why it ends. */
    private static void events() throws Exception {
        TestClock clock = new TestClock();
        List<String> told = new ArrayList<>();
        Retry retry = Retry.of("(spaced(20) && recurs(1))").clock(clock).name("fetch").onEvent(it -> told.add(it.name() + " " + it.number()
            + " " + (it.error() == null ? null : it.error().getMessage()) + " " + it.elapsed().toMillis() + " "
            + (it.delay() == null ? null : it.delay().toMillis()) + " " + it.why()));
        Function<Integer, Retry.Attempt<String, Exception>> failing = times -> {
            int[] attempts = {0};
            return () -> {
                clock.advance(Duration.ofMillis(5));
                return attempts[0]++ < times ? fail() : "done";
            };
        };
        retry.call(failing.apply(1));
        thrown(() -> retry.call(failing.apply(2)));
        thrown(() -> retry.on(error -> false).call(failing.apply(1)));
        thrown(() -> retry.budget(new Budget(1, 0)).call(failing.apply(1)));
        thrown(() -> retry.deadline(Duration.ofMillis(24)).call(failing.apply(1)));
        retry.deadline(Duration.ofMillis(25)).call(failing.apply(1));
        retry.callAsync(CompletableFuture::new, Runnable::run).cancel(true);
        same(told, List.of("fetch 1 busy 5 20 null", "fetch 2 null 30 null succeeded", "fetch 1 busy 5 20 null",
            "fetch 2 busy 30 null gave up", "fetch 1 busy 5 null not retried", "fetch 1 busy 5 null budget",
            "fetch 1 busy 5 null deadline", "fetch 1 busy 5 20 null", "fetch 2 null 30 null succeeded", "fetch 1 null 0 null cancelled"));
    }

    /** Sleeps that end early are repeated, a hundred times at most, and waits by a clock for tests take no time. */
    private static void sleeps() throws Exception {
        for (double pace : new double[] {1, 0.5, 0}) {
            long[] now = {0}, sleeps = {0}, begun = {0};
            Clock clock = new Clock() {
                @Override
                public long nanos() { return now[0]; }

                @Override
                public void sleep(Duration time) {
                    sleeps[0]++;
                    now[0] += Math.ceil(time.toNanos() * pace);
                }
            };
            Exception error = thrown(() -> Retry.of("(spaced(1000) && recurs(1))").clock(clock).call(() -> {
                begun[0] = now[0];
                return fail();
            }));
            same(error.getMessage(), pace > 0 ? "busy" : "zsched: 100 sleeps ended early: in tests set Retry.clock, to a TestClock say");
            same(List.of(pace > 0 ? begun[0] >= 1_001_000_000 : sleeps[0] == 101, sleeps[0] <= 101), List.of(true, true));
        }
        TestClock clock = new TestClock();
        Retry retry = Retry.of("(spaced(3600000) && recurs(2))").clock(clock);
        same(thrown(() -> retry.callAsync(() -> CompletableFuture.failedFuture(BUSY), Runnable::run).get(60, TimeUnit.SECONDS)), BUSY);
        same(clock.nanos(), 2 * 3_600_001_000_000L);
        clock.advance(ChronoUnit.FOREVER.getDuration());
        same(clock.nanos(), Long.MAX_VALUE);
    }

    /** A header asks for seconds or a date. */
    private static void headers() {
        Instant now = Instant.ofEpochSecond(784_111_777).minusMillis(7500);
        same(Retry.retryAfterOf(" 120 ", now), Duration.ofSeconds(120));
        same(Retry.retryAfterOf("Sun, 06 Nov 1994 08:49:37 GMT", now), Duration.ofMillis(7500));
        same(Retry.retryAfterOf("Sun, 06 Nov 1994 08:49:00 GMT", now), NONE);
        for (String other : new String[] {null, "", "-1", "1.5", "soon", "99999999999999999999", "Sun, 06 Now 1994 08:49:37 GMT"}) {
            same(Optional.ofNullable(Retry.retryAfterOf(other, now)), Optional.empty());
        }
    }

    /** Faults of the program aren't retried by default, and an executor that is shut down in a wait ends a call. */
    private static void defaults() throws Exception {
        for (Exception error : List.of(new NullPointerException("odd"), new IllegalStateException("odd"), new IndexOutOfBoundsException("odd"),
                new RuntimeException("busy"), new UncheckedIOException("busy", new IOException()), new IOException("busy"))) {
            int[] attempts = {0};
            same(thrown(() -> Retry.of("recurs(1)").call(() -> {
                attempts[0]++;
                throw error;
            })), error);
            same(attempts[0], error.getMessage().equals("odd") ? 1 : 2);
        }
        ScheduledExecutorService scheduler = Executors.newScheduledThreadPool(1);
        CompletableFuture<String> waiting = Retry.of("spaced(100)").callAsync(() -> CompletableFuture.failedFuture(BUSY), scheduler);
        scheduler.shutdownNow();
        Exception ended = thrown(() -> waiting.get(60, TimeUnit.SECONDS));
        same(List.of(ended.getClass(), ended.getSuppressed()[0]), List.of(RejectedExecutionException.class, BUSY));
    }

    /** Without a library each call says so. */
    private static void missing() {
        for (Callable<?> call : List.<Callable<?>>of(Schedule::version, () -> new Schedule("forever"), () -> Schedule.bounds("forever"), Retry::of)) {
            try {
                throw new AssertionError(call.call());
            } catch (UnsatisfiedLinkError error) {
                same(error.getMessage().contains("zsched: the jar has the library for Linux on x86-64 and arm64"), true);
            } catch (Exception other) {
                throw new AssertionError(other);
            }
        }
    }

    /** A clock that falls, also below its start, counts as if it stood still. */
    private static void falling() {
        for (long fall : new long[] {20, 80}) {
            long[] now = {0};
            int[] attempts = {0};
            List<Object> told = new ArrayList<>();
            Retry retry = Retry.of("(spaced(30) && recurs(5))").onEvent(it -> told.add(it.delay() == null ? 0L : it.delay().toMillis()))
                .clock(clock(now, time -> same(told.get(told.size() - 1), time.toMillis())));
            same(thrown(() -> retry.call(() -> {
                now[0] -= ++attempts[0] == 2 ? fall * 1_000_000 : 0;
                return fail();
            })).getMessage(), "busy");
            same(told, List.of(31L, 31L, 31L, 31L, 31L, 0L));
        }
    }

    /** A clock that stands still, whose sleep has to be so long, and is interrupted. */
    private static Clock asleep(String wanted) {
        return new Clock() {
            @Override
            public long nanos() { return 0; }

            @Override
            public void sleep(Duration time) throws InterruptedException {
                same(time.toString(), wanted);
                throw new InterruptedException("slept");
            }
        };
    }

    /** Waits of centuries overflow nowhere. */
    private static void centuries() {
        Retry retry = Retry.of("spaced(18446744073708)").attemptMost(ChronoUnit.FOREVER.getDuration());
        same(thrown(() -> retry.clock(asleep("PT2562047H47M16.854775807S")).call(OnlyInJava::fail)).getMessage(), "slept");
        Retry asked = Retry.of("recurs(1)").retryAfter(error -> ChronoUnit.FOREVER.getDuration()).clock(asleep("PT30M"));
        same(thrown(() -> asked.retryAfterMost(Duration.ofMinutes(30)).jitter(1).call(OnlyInJava::fail)).getMessage(), "slept");
        CompletableFuture<String> waiting = Retry.of("spaced(18446744000000)").attemptMost(ChronoUnit.FOREVER.getDuration())
            .callAsync(() -> CompletableFuture.failedFuture(BUSY), Runnable::run);
        same(List.of(waiting.isDone(), waiting.cancel(true)), List.of(false, true));
    }

    /** Wrong texts and numbers are errors, and an option changes no other retry. */
    private static void wrong() throws Exception {
        same(((Schedule.Fault) thrown(() -> Retry.of("recurs("))).at, 7L);
        same(((Schedule.Fault) thrown(() -> Retry.of("recurs(1).collectAll"))).number, 6);
        same(((Schedule.Fault) thrown(() -> new Schedule("forever").output())).number, 2);
        for (double wrong : new double[] {-0.1, Double.NaN, Double.POSITIVE_INFINITY}) {
            same(thrown(() -> new Budget(wrong, 0.1)).getClass(), IllegalArgumentException.class);
            same(thrown(() -> new Budget(10, wrong)).getClass(), IllegalArgumentException.class);
            same(thrown(() -> Retry.of("forever").jitter(wrong)).getClass(), IllegalArgumentException.class);
            same(thrown(() -> new Schedule("forever").plan(Duration.ZERO, Duration.ZERO, 0, Duration.ZERO, Duration.ZERO, wrong)).getClass(),
                IllegalArgumentException.class);
        }
        Duration below = Duration.ofNanos(-1);
        same(thrown(() -> Guard.late(below)).getMessage(), "zsched: lateness of PT-0.000000001S isn't 0 or above");
        Retry forever = Retry.of("forever");
        for (Callable<?> wrong : List.<Callable<?>>of(() -> forever.attemptMost(NONE), () -> forever.attemptMost(below),
                () -> forever.retryAfterMost(below), () -> forever.deadline(below), () -> Guard.late(NONE).trustingAttempts(below, NONE))) {
            same(thrown(wrong).getClass(), IllegalArgumentException.class);
        }
        Guard longestFirst = Guard.late(NONE).trustingAttempts(Duration.ofMillis(6), Duration.ofMillis(5));
        same(((Schedule.Fault) thrown(() -> forever.bounds(longestFirst))).number, 10);
        same(new Budget(0, 0).take(), false);
        Retry retry = Retry.of("recurs(1)");
        retry.on(error -> false).retryOnResult(result -> true).onEvent(it -> hook());
        int[] attempts = {0};
        same(retry.call(() -> attempts[0]++ == 0 ? fail() : "done"), "done");
    }

    /** Threads share a retry, and each call begins its own schedule. */
    private static void shared() throws Exception {
        Schedule schedule = new Schedule("recurs(20)");
        schedule.after(1, 0);
        AtomicInteger attempts = new AtomicInteger();
        Retry retry = Retry.of(schedule);
        List<Thread> threads = new ArrayList<>();
        for (int i = 0; i < 8; i++) {
            threads.add(new Thread(() -> thrown(() -> retry.call(() -> {
                attempts.incrementAndGet();
                return fail();
            }))));
        }
        threads.forEach(Thread::start);
        for (Thread thread : threads) {
            thread.join();
        }
        same(List.of(attempts.get(), schedule.output()), List.of(8 * 21, "0"));
    }

    /** An interrupt that isn't the limit's ends the retry, and the limit's leaves none. */
    private static void limited() throws Exception {
        Thread caller = Thread.currentThread();
        Retry retry = Retry.of("recurs(2)").attemptMost(Duration.ofMillis(20));
        same(thrown(() -> retry.call(() -> {
            Thread.sleep(60_000);
            return 1;
        })).getMessage(), "zsched: the attempt took longer than PT0.02S");
        same(retry.call(() -> {
            long begun = System.nanoTime();
            while (System.nanoTime() - begun < 60_000_000) {
                Thread.onSpinWait();
            }
            return "late";
        }), "late");
        same(caller.isInterrupted(), false);
        int[] attempts = {0};
        same(thrown(() -> retry.attemptMost(Duration.ofMinutes(1)).call(() -> {
            attempts[0]++;
            throw new InterruptedException();
        })).getClass(), InterruptedException.class);
        same(attempts[0], 1);
    }

    /** Attempts that a scheduler starts: their cause is judged, and none follows a cancelled future. */
    private static void async() throws Exception {
        ScheduledExecutorService scheduler = Executors.newScheduledThreadPool(1);
        List<Object> failures = new ArrayList<>();
        Supplier<CompletableFuture<String>> attempt = () -> CompletableFuture.supplyAsync(() -> {
            throw new CompletionException(BUSY);
        });
        Budget budget = new Budget(9, 2);
        Retry retry = Retry.of("(spaced(20) && recurs(2))").on(error -> error == BUSY).budget(budget)
            .onEvent(it -> failures.add(it.number() + " " + it.why()));
        long begun = System.nanoTime();
        try {
            retry.callAsync(attempt, scheduler).get();
        } catch (ExecutionException ended) {
            same(ended.getCause(), BUSY);
        }
        same(failures, List.of("1 null", "2 null", "3 gave up"));
        same(System.nanoTime() - begun >= 40_000_000, true);
        same(budget.tokens(), 6.0);
        same(retry.callAsync(() -> CompletableFuture.completedFuture("done"), scheduler).get(), "done");
        same(budget.tokens(), 8.0);
        failures.clear();
        retry.callAsync(() -> CompletableFuture.failedFuture(BUSY), scheduler).cancel(false);
        scheduler.shutdown();
        same(scheduler.awaitTermination(60, TimeUnit.SECONDS), true);
        same(failures, List.of("1 null", "1 cancelled"));
    }

    /** A cancelled future ends its wait and its attempt, and takes no token. */
    private static void cancelled() throws Exception {
        ScheduledExecutorService scheduler = Executors.newScheduledThreadPool(1);
        Budget budget = new Budget(9, 2);
        Retry retry = Retry.of("spaced(3600000)").budget(budget);
        retry.callAsync(() -> CompletableFuture.failedFuture(BUSY), scheduler).cancel(true);
        CompletableFuture<String> running = new CompletableFuture<>();
        retry.callAsync(() -> running, scheduler).cancel(true);
        same(List.of(running.isCancelled(), budget.tokens()), List.of(true, 8.0));
        same(retry.callAsync(() -> CompletableFuture.<String>failedFuture(new Throwable("odd")), scheduler)
            .handle((value, error) -> error.getMessage()).get(60, TimeUnit.SECONDS), "odd");
        scheduler.shutdown();
        same(scheduler.awaitTermination(60, TimeUnit.SECONDS), true);
        same(thrown(() -> retry.call(null)).getMessage(), "attempt");
    }

    /** Numbers are unsigned, and bounds are held or not. */
    private static void numbers() {
        same(new Schedule("spaced(18446744073709551614)").after(1, 0), OptionalLong.of(-1));
        same(new Schedule("spaced(18446744073709)").plan(Duration.ZERO, Duration.ZERO, 0).isEmpty(), true);
        // 6 attempts, and 3100 milliseconds
        Schedule.Bounds bounds = Schedule.bounds("(exponential(100) && recurs(5))");
        same(List.of(bounds.within(6, Duration.ofMillis(3100)), bounds.within(5, Duration.ofMillis(3100)),
            bounds.within(6, Duration.ofMillis(3099)), Schedule.bounds("spaced(1)").within(-1, Duration.ofDays(1))),
            List.of(true, false, false, false));
        Duration forever = ChronoUnit.FOREVER.getDuration();
        Schedule.Bounds late = Retry.of("(spaced(10) && recurs(1))").bounds(Guard.late(forever));
        same(List.of(late.most(), late.longest().toString(), late.longestRun()),
            List.of(OptionalLong.of(2), "PT5124095576030H25M51.615S", Optional.empty()));
    }

    /** Copies share a program and no state, and a state can be resumed. */
    private static void copies() {
        Schedule schedule = new Schedule("(linear(10) && recurs(3))");
        schedule.after(1, 0);
        Schedule copy = schedule.copy(), first = schedule.begin(), resumed = Schedule.resume(schedule.text(), schedule.state());
        schedule.after(100, 0);
        for (Schedule it : List.of(copy, resumed)) {
            same(List.of(it.after(200, 0), it.output(), it.text()), List.of(OptionalLong.of(220), "(20,1)", schedule.text()));
        }
        same(List.of(first.after(5, 0), first.output(), schedule.output()), List.of(OptionalLong.of(15), "(10,0)", "(20,1)"));
        same(((Schedule.Fault) thrown(() -> Schedule.resume("recurs(3)", schedule.state()))).number, 9);
        long[] older = java.util.Arrays.copyOfRange(schedule.state(), 1, schedule.state().length);
        same(((Schedule.Fault) thrown(() -> Schedule.resume(schedule.text(), older))).number, 18);
        same(((Schedule.Fault) thrown(() -> Schedule.resume(schedule.text(), new long[0]))).number, 9);
    }

    /** A plan with each option, and one with a random draw. */
    private static void plans() {
        Schedule schedule = new Schedule("(spaced(100) && recurs(9))");
        Duration began = Duration.ofMillis(-5), ended = Duration.ofMillis(7), hour = Duration.ofHours(1);
        same(schedule.copy().plan(began, ended, 0).get().toMillis(), 107L);
        same(schedule.copy().plan(began, ended, 0, Duration.ofNanos(200_000_001), hour, 0).get().toMillis(), 208L);
        same(schedule.copy().plan(began, ended, 0, hour, Duration.ofMillis(300), 0).get().toMillis(), 307L);
        same(schedule.copy().plan(began, ended, 0, Duration.ZERO, hour, 0.5, -1 << 31).get().toMillis(), 82L);
        List<Long> begins = new ArrayList<>();
        for (int i = 0; i < 100; i++) {
            begins.add(schedule.copy().plan(began, ended, 0, Duration.ZERO, hour, 0.29).get().toNanos());
        }
        same(begins.stream().allMatch(it -> it >= 78_000_000 && it <= 107_000_000), true);
        same(begins.stream().distinct().count() > 90, true);
    }

    public static void main(String[] words) throws Exception {
        if (words.length > 0) {
            missing();
            return;
        }
        interrupt();
        guarded();
        standard();
        events();
        sleeps();
        headers();
        defaults();
        hooks();
        futures();
        declared();
        results();
        early();
        falling();
        centuries();
        wrong();
        shared();
        limited();
        async();
        cancelled();
        numbers();
        copies();
        plans();
    }
}

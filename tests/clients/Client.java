import java.io.BufferedReader;
import java.io.IOException;
import java.io.InputStreamReader;
import java.nio.charset.StandardCharsets;
import java.time.Duration;
import java.time.temporal.ChronoUnit;
import java.util.ArrayList;
import java.util.HexFormat;
import java.util.List;
import java.util.Optional;
import java.util.OptionalLong;
import java.util.concurrent.CompletableFuture;
import java.util.concurrent.ExecutionException;
import java.util.concurrent.Executors;
import java.util.concurrent.ScheduledExecutorService;
import java.util.concurrent.TimeUnit;
import java.util.concurrent.TimeoutException;
import zsched.Budget;
import zsched.Clock;
import zsched.Guard;
import zsched.Retry;
import zsched.Schedule;

/** The client of the library in Java. client.c documents the requests and the lines. */
public final class Client {
    private static final Budget BUDGET = new Budget(10, 0.5);
    private static final long SECOND = 1_000_000_000;

    private static void steps(String command, String text, long[] numbers, List<Object> said) {
        Schedule schedule = new Schedule(text);
        for (int i = 0; i < numbers.length; i += 2) {
            if (command.equals("stored")) {
                schedule = Schedule.resume(text, schedule.state());
            }
            OptionalLong next = schedule.after(numbers[i], numbers[i + 1]);
            said.add((next.isPresent() ? 0 : 1) + "," + Long.toUnsignedString(next.orElse(0)) + "," + schedule.output());
        }
    }

    /** A time of so many units, of which a second has `perSecond`. */
    private static Duration time(long number, long perSecond) {
        return Duration.ofSeconds(Long.divideUnsigned(number, perSecond),
            Long.remainderUnsigned(number, perSecond) * (SECOND / perSecond));
    }

    private static String nanos(Duration time) {
        return Long.toUnsignedString(time.getSeconds() * SECOND + time.getNano());
    }

    private static void plan(String text, long[] numbers, List<Object> said) {
        Schedule schedule = new Schedule(text);
        for (int i = 3; i < numbers.length; i += 4) {
            Optional<Duration> begin = schedule.plan(time(numbers[i], SECOND), time(numbers[i + 1], SECOND), numbers[i + 2],
                time(numbers[1], 1000), time(numbers[2], 1000), numbers[0] / 100.0, (int) numbers[i + 3]);
            said.add(begin.map(it -> "0," + nanos(it)).orElse("1,0"));
        }
    }

    /** A loop that is started again after each attempt, and a wall clock that is set back before the third one. */
    private static void restarted(String text, long[] numbers, List<Object> said) {
        Duration start = Duration.ofSeconds(SECOND), clock = start, begin = Duration.ZERO;
        Schedule schedule = new Schedule(text);
        long attempts = 0;
        for (boolean isDone = false; !isDone && attempts < numbers[2]; ) {
            clock = ++attempts == 3 ? clock.minus(time(numbers[1], 1000)) : clock;
            Optional<Duration> next = schedule.plan(clock.minus(start), clock.minus(start), numbers[0]);
            isDone = next.isEmpty();
            begin = next.orElse(begin);
            clock = start.plus(begin);
            schedule = Schedule.resume(text, schedule.state());
        }
        said.addAll(List.of(attempts, nanos(begin)));
    }

    /** What a retry calls, in order, how it ends, and the tokens that remain. */
    private static void order(String text, String what, List<Object> said) throws Exception {
        Budget budget = what.equals("broke") ? new Budget(1, 0) : new Budget(10, 0.5);
        Retry retry = Retry.of(text).budget(budget).on(error -> !what.equals("unretried")).inputOf(error -> {
            said.add("input");
            return what.equals("input") ? -1 : 7;
        }).retryAfter(error -> {
            said.add("least");
            if (what.equals("least")) {
                throw new ArithmeticException("least");
            }
            return null;
        }).onEvent(it -> said.add(it.why() == null ? "sleep" : it.why().toString().replace(' ', '_')));
        try {
            retry.call(() -> {
                said.add("attempt");
                if (what.equals("cancelled")) {
                    Thread.currentThread().interrupt();
                }
                throw new IOException("7");
            });
        } catch (InterruptedException cancelled) {
            said.add("cancelled");
        } catch (IOException error) {
            said.add(error.getMessage());
        }
        said.add(budget.tokens());
    }

    private static void retry(String command, String text, long[] numbers, List<Object> said) throws Exception {
        long begun = System.nanoTime();
        int[] attempts = {0};
        Retry retry = Retry.of(text).inputOf(error -> Long.parseUnsignedLong(error.getMessage()))
            .on(error -> numbers.length == 2 || numbers[0] != numbers[4]);
        Retry.Attempt<String, IOException> attempt = () -> {
            said.add((System.nanoTime() - begun) / 1000);
            if (attempts[0]++ < numbers[1]) {
                throw new IOException(Long.toUnsignedString(numbers[0]));
            }
            return "done";
        };
        try {
            said.add(0, command.equals("later") ? later(retry, attempt)
                : (numbers.length > 2 ? optioned(retry, numbers, said) : retry).call(attempt));
        } catch (IOException error) {
            said.add(0, error.getMessage());
        }
    }

    /** The same asynchronously, on another thread after the first attempt. */
    private static String later(Retry retry, Retry.Attempt<String, IOException> attempt) throws Exception {
        ScheduledExecutorService scheduler = Executors.newScheduledThreadPool(1);
        try {
            return retry.callAsync(() -> {
                try {
                    return CompletableFuture.completedFuture(attempt.call());
                } catch (Exception error) {
                    return CompletableFuture.failedFuture(error);
                }
            }, scheduler).get();
        } catch (ExecutionException ended) {
            throw (Exception) ended.getCause();
        } finally {
            scheduler.shutdown();
        }
    }

    private static Retry optioned(Retry retry, long[] numbers, List<Object> said) {
        Retry most = numbers.length == 6 ? retry : retry.retryAfterMost(Duration.ofMillis(numbers[6]));
        return most.budget(numbers[5] == 1 ? BUDGET : null).jitter(numbers[2] / 100.0).retryAfter(error -> Duration.ofMillis(numbers[3])).onEvent(it -> {
            if (it.delay() != null) {
                said.add(it.number() + ":" + it.delay().toMillis());
            }
        });
    }

    /** Makes attempts that end some time after their interrupt, or in 5 seconds; a future is cancelled. */
    private static void limited(String command, String text, long[] numbers, List<Object> said) throws Exception {
        long begun = System.nanoTime();
        Runnable say = () -> said.add((System.nanoTime() - begun) / 1000);
        Retry retry = Retry.of(text).inputOf(error -> numbers[0]).attemptMost(Duration.ofMillis(numbers[2]));
        ScheduledExecutorService scheduler = Executors.newScheduledThreadPool(1);
        try {
            said.add(0, command.equals("limited") ? retry.call(() -> {
                say.run();
                try {
                    Thread.sleep(said.size() <= 2 * numbers[1] ? 5000 : 0);
                } catch (InterruptedException interrupted) {
                    Thread.sleep(30);
                    throw interrupted;
                } finally {
                    say.run();
                }
                return "done";
            }) : retry.callAsync(() -> {
                say.run();
                // It notes its end before the retry sees it.
                CompletableFuture<String> attempt = new CompletableFuture<>() {
                    @Override
                    public boolean cancel(boolean isInterrupted) {
                        if (!isDone()) {
                            say.run();
                        }
                        return super.cancel(isInterrupted);
                    }
                };
                scheduler.schedule(() -> {
                    say.run();
                    attempt.complete("done");
                }, said.size() <= 2 * numbers[1] ? 5000 : 0, TimeUnit.MILLISECONDS);
                return attempt;
            }, scheduler).get());
        } catch (TimeoutException | ExecutionException late) {
            said.add(0, numbers[0]);
        } finally {
            scheduler.shutdownNow();
        }
    }

    private static long good(String text, long count) throws Exception {
        Retry retry = Retry.of(text);
        long begun = System.nanoTime();
        for (long i = 0; i < count; i++) {
            long number = i;
            retry.call(() -> number);
        }
        return (System.nanoTime() - begun) / count;
    }

    /** Retries with an option at the edge of what it may be, and says how. */
    private static void edge(String text, String what, String number, List<Object> said) throws Exception {
        Retry retry = Retry.of(text);
        Duration time = Duration.ofMillis(Long.parseLong(number));
        List<Long> moments = new ArrayList<>();
        try {
            retry = switch (what) {
                case "limit" -> retry.attemptMost(time);
                case "longest" -> retry.retryAfterMost(time).retryAfter(error -> Duration.ofMillis(1500));
                default -> retry;
            };
        } catch (IllegalArgumentException refused) {
            said.add("refused");
            return;
        }
        if (what.equals("cancelled")) {
            Thread.currentThread().interrupt();
        }
        String ended;
        try {
            ended = retry.call(() -> {
                moments.add(System.nanoTime());
                throw new IOException("503");
            });
        } catch (InterruptedException cancelled) {
            ended = "cancelled";
        } catch (IOException error) {
            ended = error.getMessage();
        }
        said.addAll(List.of(moments.size(), ended));
        if (moments.size() == 2) {
            said.add(moments.get(1) - moments.get(0) < SECOND ? "short" : "long");
        }
    }

    /** A clock that a call alone moves, and the last draw. */
    private static final class Driven implements Clock {
        private final long late;
        private final boolean falls;
        private int drawn;
        private long now;

        Driven(long seed, long late, boolean falls) {
            this.late = late;
            this.falls = falls;
            drawn = (int) seed;
        }

        long draw(long most) {
            drawn = drawn * 1103515245 + 12345;
            return (drawn >>> 16) * most / 65535;
        }

        void move(long nanos) {
            now += nanos;
            now -= falls && draw(3) == 0 ? 1000 * draw(10_000_000) : 0;
        }

        @Override
        public long nanos() { return now; }

        @Override
        public void sleep(Duration time) { move(time.toNanos() + 1000 * draw(1000 * late)); }
    }

    /** Makes a call over such a clock, and says what it did beside the bounds of its guard. */
    private static void guarded(String text, long[] to, List<Object> said) throws InterruptedException, TimeoutException {
        Driven clock = new Driven(to[0], to[4], to[7] == 1);
        Retry retry = Retry.of(text).clock(clock).inputOf(error -> Long.parseLong(error.getMessage())).jitter(to[1] / 100.0)
            .retryAfterMost(Duration.ofMillis(to[2])).retryAfter(to[2] == 0 ? null : error -> Duration.ofMillis(clock.draw(2 * to[2])));
        if (to[3] > 0) {
            retry = retry.deadline(Duration.ofMillis(to[3]));
        }
        long[] found = {0, 0, 0, 0};
        try {
            retry.call(() -> {
                long wait = clock.now - found[3];
                found[1] = Math.max(found[1], wait);
                found[2] += wait;
                clock.move(1000 * (1000 * to[5] + clock.draw(1000 * (to[6] - to[5]))));
                found[3] = clock.now;
                if (++found[0] < 200) {
                    throw new IOException("" + (502 + clock.draw(2)));
                }
                return "done";
            });
        } catch (IOException last) {
            // It gave up.
        }
        Guard guard = Guard.late(to[7] == 1 ? ChronoUnit.FOREVER.getDuration() : Duration.ofMillis(to[4]));
        Schedule.Bounds bounds = retry.bounds(to[7] == 1 ? guard : guard.trustingAttempts(Duration.ofMillis(to[5]), Duration.ofMillis(to[6])));
        said.addAll(List.of(found[0], found[1], found[2], found[3], bounds.least(), bounds.most().orElse(-1), millis(bounds.longest()),
            bounds.total().map(Client::millis).orElse("-1"), bounds.longestRun().map(Client::millis).orElse("-1")));
    }

    private static void bounds(String text, long[] numbers, List<Object> said) {
        Retry retry = Retry.of(text);
        Guard guard = Guard.late(numbers.length < 6 ? Duration.ZERO : time(numbers[5], 1000)).steps(numbers[0]);
        if (numbers.length >= 3) {
            guard = guard.trustingAttempts(time(numbers[1], 1000), time(numbers[2], 1000));
        }
        if (numbers.length >= 6) {
            retry = retry.jitter(numbers[3] / 100.0).retryAfter(error -> null).retryAfterMost(time(numbers[4], 1000));
        }
        Schedule.Bounds found = retry.bounds(guard);
        said.addAll(List.of(found.seen(), found.least(), limit(found.most()), millis(found.longest()),
            limit(found.total()), limit(found.longestRun())));
    }

    private static String millis(Duration time) {
        return Long.toUnsignedString(time.getSeconds() * 1000 + time.getNano() / 1_000_000);
    }

    private static String limit(Optional<Duration> bound) {
        return (bound.isPresent() ? 1 : 0) + " " + millis(bound.orElse(Duration.ZERO));
    }

    private static String limit(OptionalLong bound) {
        return (bound.isPresent() ? 1 : 0) + " " + Long.toUnsignedString(bound.orElse(0));
    }

    private static void many(String text, long count) {
        Schedule schedule = new Schedule(text);
        long moment = 0;
        for (long i = 1; i <= count; i++) {
            moment = schedule.after(moment, 503).getAsLong();
            if (i % (count / 10) == 0) {
                System.out.println();
            }
        }
    }

    private static void serve(String command, String text, List<String> words, List<Object> said) throws Exception {
        if (command.equals("order")) {
            order(text, words.get(0), said);
            return;
        }
        if (command.equals("edge")) {
            edge(text, words.get(0), words.size() > 1 ? words.get(1) : "0", said);
            return;
        }
        String[] lines = text.split("\n");
        long[] numbers = words.stream().mapToLong(Long::parseUnsignedLong).toArray();
        switch (command) {
            case "said" -> {
                try {
                    new Schedule(text);
                } catch (Schedule.Fault fault) {
                    said.add("." + HexFormat.of().formatHex(fault.getMessage().getBytes(StandardCharsets.UTF_8)));
                }
            }
            case "guarded" -> guarded(text, numbers, said);
            case "version" -> said.add(Schedule.version());
            case "moved" -> Schedule.resume(lines[1], new Schedule(lines[0]).state());
            case "retry", "later" -> retry(command, text, numbers, said);
            case "limited", "limited_later" -> limited(command, text, numbers, said);
            case "good" -> said.add(good(text, numbers[0]));
            case "bounds" -> bounds(text, numbers, said);
            case "many" -> many(text, numbers[0]);
            case "plan" -> plan(text, numbers, said);
            case "restarted" -> restarted(text, numbers, said);
            default -> steps(command, text, numbers, said);
        }
    }

    public static void main(String[] arguments) throws Exception {
        BufferedReader lines = new BufferedReader(new InputStreamReader(System.in, StandardCharsets.US_ASCII));
        for (String request = lines.readLine(); request != null; request = lines.readLine()) {
            String[] words = request.split(" ");
            String text = new String(HexFormat.of().parseHex(words[1].substring(1)), StandardCharsets.UTF_8);
            List<Object> said = new ArrayList<>();
            try {
                serve(words[0], text, List.of(words).subList(2, words.length), said);
            } catch (Schedule.Fault fault) {
                said.add(fault.number + "," + Long.toUnsignedString(fault.at) + ","
                    + fault.getMessage().lines().findFirst().orElse("").split(": ")[0]);
            }
            System.out.println(String.join(" ", said.stream().map(Object::toString).toList()));
        }
    }
}

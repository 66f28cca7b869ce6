package zsched;

import com.sun.jna.Native;
import java.io.IOException;
import java.nio.charset.StandardCharsets;
import java.time.Duration;
import java.util.Optional;
import java.util.OptionalLong;
import java.util.concurrent.ThreadLocalRandom;

/**
 * A proved schedule of zsched: a text, compiled once, and the state after the steps so far. It doesn't
 * sleep; {@link Retry} really sleeps. Its results are proved, the sleeping is not.
 *
 * <p>The library is the libzsched.so that the property zsched.library names, else, with the property
 * jna.library.path, the one that JNA finds, else the one in the jar, else the system's. Numbers are unsigned and
 * of 64 bits, so those from 2^63 on look negative here: compare and print them by {@link Long#compareUnsigned} and
 * {@link Long#toUnsignedString(long)}. Threads must not share a schedule that one of them steps, but may
 * share one of which they only {@link #begin} others.
 */
public final class Schedule {
    /** The calls of zsched.h. A struct is an array of its words, of which the first is its size in bytes. */
    private static final class Calls {
        private static final String MISSING = registered();

        /** Registers the calls. Returns why that can't be, or null. An error would make the class unusable unsaid. */
        private static String registered() {
            try {
                Native.register(Calls.class, place());
                return null;
            } catch (UnsatisfiedLinkError fault) {
                return fault.getMessage() + "\nzsched: the jar has the library for Linux on x86-64 and arm64 with "
                    + "glibc; else name a built libzsched.so in the property zsched.library";
            }
        }

        /** Throws an UnsatisfiedLinkError if there is no library, each time. */
        static void need() {
            if (MISSING != null) {
                throw new UnsatisfiedLinkError(MISSING);
            }
        }

        /** Returns the library's path, or its name if JNA must find it. JNA would take the system's before the jar's. */
        private static String place() {
            String named = System.getProperty("zsched.library");
            if (named != null || System.getProperty("jna.library.path") != null) {
                return named == null ? "zsched" : named;
            }
            try {
                return Native.extractFromResourcePath("zsched", Schedule.class.getClassLoader()).getPath();
            } catch (IOException fault) {
                return "zsched";
            }
        }

        static native int zs_bounds(byte[] text, long textLength, long[] driver, long steps, long[] bounds, long[] at);
        static native int zs_program_size(byte[] text, long textLength, long[] size, long[] stateSize, long[] at);
        static native int zs_compile(byte[] text, long textLength, long[] program, long words, long[] at);
        static native int zs_program_begin(long[] program, long words, long[] state, long stateWords);
        static native int zs_plan(long[] program, long words, long[] state, long stateWords, long[] turn, long[] begin);
        static native int zs_program_step(long[] program, long words, long[] state, long stateWords, long moment,
            long input, long[] next, long[] visits);
        static native int zs_output(long[] program, long words, long[] state, long stateWords, byte[] out, long room,
            long[] size);
        static native long zs_strerror(int number, long at, byte[] out, long room);
        static native int zs_version();
    }

    /**
     * What a schedule does for every input, if no moment is above 999999999999999 ms. An error that isn't retried may end
     * a call before {@code least}.
     *
     * @param seen the number of attempts that were examined
     * @param least the schedule isn't done before this attempt: 1 with a budget or a deadline
     * @param most the number of attempts at most; empty if there is no bound
     * @param longest the longest wait after the attempts that were examined
     * @param total all waits together at most; empty if there is no bound
     * @param longestRun each attempt ends at most this long after the begin of the first; empty if there is no bound
     */
    public record Bounds(long seen, long least, OptionalLong most, Duration longest, Optional<Duration> total,
            Optional<Duration> longestRun) {
        /** Returns whether there are at most {@code most} attempts, and so much wait in all. */
        public boolean within(long most, Duration total) {
            return this.most.isPresent() && Long.compareUnsigned(this.most.getAsLong(), most) <= 0
                && isWithin(this.total, total);
        }

        /** Returns whether each call ends within {@code run}, attempts and waits together. */
        public boolean endsWithin(Duration run) { return isWithin(longestRun, run); }

        private static boolean isWithin(Optional<Duration> bound, Duration most) {
            return bound.isPresent() && bound.get().compareTo(most) <= 0;
        }
    }

    /**
     * The error of a call. The number and the place are those of zsched.h. The message has the library's words, and for a
     * text a hint, the text and a mark below its fault.
     */
    public static final class Fault extends IllegalArgumentException {
        private static final long serialVersionUID = 1;

        /** The number, as zsched.h defines it. */
        public final int number;
        /** The place, as zsched.h defines it. */
        public final long at;
        /** The text that is wrong, or null. */
        public final String text;

        Fault(int number, long at, String text) {
            super(text == null ? message(number, at) : Hints.message(message(number, at), number, (int) at, text));
            this.number = number;
            this.at = at;
            this.text = text;
        }
    }

    private static final int OK = 0;
    private static final int DONE = 1;
    private static final int NO_STEP = 2;
    private static final int NO_MEMORY = 5;
    private static final int OTHER_STATE = 9;
    private static final int NO_DRIVER = 10;
    private static final int OTHER_VERSION = 18;
    private static final int ROOM = 256;
    private static final long SECOND = 1_000_000_000;

    private final String text;
    private final long[] program;
    private final long[] state;

    /** Makes the schedule of a text, before its first step. Throws {@link Fault}: number 6 for a list in its output. */
    public Schedule(String text) {
        Calls.need();
        byte[] bytes = text.getBytes(StandardCharsets.UTF_8);
        long[] size = new long[1];
        long[] stateSize = new long[1];
        long[] at = new long[1];
        continues(Calls.zs_program_size(bytes, bytes.length, size, stateSize, at), at[0], text);
        this.text = text;
        this.program = new long[Math.toIntExact(size[0])];
        this.state = new long[Math.toIntExact(stateSize[0])];
        continues(Calls.zs_compile(bytes, bytes.length, program, program.length, at), at[0], text);
        continues(Calls.zs_program_begin(program, program.length, state, state.length));
    }

    private Schedule(Schedule other, long[] state) {
        this.text = other.text;
        this.program = other.program;
        this.state = state;
    }

    /**
     * Returns the schedule of a text with a state that {@link #state} returned. Throws as the
     * constructor does, and {@link Fault}: number 9 for the words of another schedule, 18 for those of another version.
     * Words that were changed after those that identify it aren't detected.
     */
    public static Schedule resume(String text, long[] state) {
        Schedule first = new Schedule(text);
        int number = Calls.zs_output(first.program, first.program.length, state, state.length, new byte[0], 0, new long[1]);
        if (state.length != first.state.length || number != OK && number != NO_STEP) {
            throw new Fault(number == OTHER_VERSION ? number : OTHER_STATE, 0, null);
        }
        return new Schedule(first, state.clone());
    }

    /** Returns a schedule of the same program, which is shared, before its first step. */
    public Schedule begin() {
        long[] first = new long[state.length];
        continues(Calls.zs_program_begin(program, program.length, first, first.length));
        return new Schedule(this, first);
    }

    /** Returns a copy in the same state, which shares the program. */
    public Schedule copy() { return new Schedule(this, state.clone()); }

    /** Returns the text. */
    public String text() { return text; }

    /** Returns the words of the state. Their number depends on the text alone; the first ones identify the schedule. */
    public long[] state() { return state.clone(); }

    /**
     * Makes one more step, at a moment in milliseconds and with an input, and returns the moment at which
     * the next attempt may begin, or nothing if the schedule is done. Throws {@link Fault} if the moment is
     * below that of the step before; the schedule is then unchanged.
     */
    public OptionalLong after(long moment, long input) {
        long[] next = new long[1];
        int number = Calls.zs_program_step(program, program.length, state, state.length, moment, input, next,
            new long[1]);
        return limit(continues(number), next[0]);
    }

    /** Returns the text of the last step's output. Throws {@link Fault}, with the number 2, before a first step. */
    public String output() {
        byte[] out = new byte[ROOM];
        long[] size = new long[1];
        continues(Calls.zs_output(program, program.length, state, state.length, out, out.length, size));
        if (size[0] > out.length) {
            out = new byte[Math.toIntExact(size[0])];
            continues(Calls.zs_output(program, program.length, state, state.length, out, out.length, size));
        }
        return new String(out, 0, (int) size[0], StandardCharsets.US_ASCII);
    }

    /** Plans as below, without jitter and a least wait. */
    public Optional<Duration> plan(Duration began, Duration ended, long input) {
        return plan(began, ended, input, Duration.ZERO, Duration.ZERO, 0, 0);
    }

    /** Plans as below, with a random draw. */
    public Optional<Duration> plan(Duration began, Duration ended, long input, Duration least, Duration longest,
            double jitter) {
        return plan(began, ended, input, least, longest, jitter, ThreadLocalRandom.current().nextInt());
    }

    /**
     * Steps the schedule at the end of a failed attempt, and returns when the next attempt may begin, or
     * nothing if the schedule is done. These times count from the begin of the first attempt, by the clock of a loop,
     * which may fall; those below 0 count as 0. Throws {@link Fault} only if an earlier plan returned nothing, or
     * {@link #after} was at a later moment.
     *
     * @param began when the attempt began
     * @param ended when it ended
     * @param input the error's code, or any number
     * @param least how long to wait at least, such as a server's Retry-After, in milliseconds rounded up
     * @param longest how much of {@code least} counts at most
     * @param jitter the share of the schedule's wait that may be taken off, rounded to whole percent: 0 to 1, else
     *     it throws IllegalArgumentException
     * @param draw how much of that is taken off: 32 random bits, a fraction of 2^32
     */
    public Optional<Duration> plan(Duration began, Duration ended, long input, Duration least, Duration longest,
            double jitter, int draw) {
        // The last two fields have 32 bits each, the lower ones first.
        long[] turn = {7 * Long.BYTES, units(began, SECOND, 0), units(ended, SECOND, 0), input,
            units(least, 1000, 999_999), units(longest, 1000, 0), (long) draw << 32 | percent(jitter)};
        long[] begin = new long[1];
        if (!continues(Calls.zs_plan(program, program.length, state, state.length, turn, begin))) {
            return Optional.empty();
        }
        return Optional.of(time(begin[0], SECOND));
    }

    /**
     * Returns the bounds of a text's schedule, of which at most the first 1,000 attempts are examined. They take 1
     * millisecond or more, and waits are the schedule's. {@link Retry#bounds} returns those of a retry with its options.
     * Throws {@link Fault}.
     */
    public static Bounds bounds(String text) {
        return bounds(text, 1000, Guard.late(Duration.ZERO), null, 0, Duration.ZERO);
    }

    /** Returns the bounds for attempts of at most a time, or of any, with a jitter and a longest least wait. */
    static Bounds bounds(String text, long steps, Guard guard, Duration longest, double jitter, Duration asked) {
        Calls.need();
        byte[] bytes = text.getBytes(StandardCharsets.UTF_8);
        boolean hasMost = longest != null;
        long[] words = {8 * Long.BYTES, Math.max(1, units(guard.shortest(), 1000, 0)), hasMost ? 1 : 0,
            hasMost ? Math.max(1, units(longest, 1000, 999_999)) : 0, 100 - percent(jitter), 100,
            units(asked, 1000, 0), units(guard.late(), 1000, 999_999)};
        long[] found = {10 * Long.BYTES, 0, 0, 0, 0, 0, 0, 0, 0, 0};
        long[] at = new long[1];
        int number = Calls.zs_bounds(bytes, bytes.length, words, steps, found, at);
        continues(number, at[0], number == NO_DRIVER ? null : text);
        return new Bounds(found[1], found[2], limit(found[3] == 1, found[4]), time(found[5], 1000),
            Optional.of(time(found[7], 1000)).filter(it -> found[6] == 1),
            Optional.of(time(found[9], 1000)).filter(it -> found[8] == 1));
    }

    /** Returns the version of the library as one number: 1000000 * major + 1000 * minor + patch. */
    public static int version() {
        Calls.need();
        return Calls.zs_version();
    }

    private static OptionalLong limit(boolean isThere, long number) {
        return isThere ? OptionalLong.of(number) : OptionalLong.empty();
    }

    /** Returns a share from 0 to 1 in whole percent. */
    static int percent(double share) {
        if (!(share >= 0 && share <= 1)) {
            throw new IllegalArgumentException("zsched: a jitter of " + share + " is not from 0 to 1");
        }
        return (int) Math.round(100 * share);
    }

    /** Returns a time of so many units. */
    private static Duration time(long units, long perSecond) {
        return Duration.ofSeconds(Long.divideUnsigned(units, perSecond),
            Long.remainderUnsigned(units, perSecond) * (SECOND / perSecond));
    }

    /** Returns a time in units, with so many nanoseconds more, rounded down: 0 to 2^64 - 1. */
    private static long units(Duration time, long perSecond, int more) {
        if (time.isNegative()) {
            return 0;
        }
        long seconds = time.getSeconds() * perSecond;
        long sum = seconds + (time.getNano() + more) / (SECOND / perSecond);
        boolean isAbove = Math.multiplyHigh(time.getSeconds(), perSecond) > 0 || Long.compareUnsigned(sum, seconds) < 0;
        return isAbove ? -1 : sum;
    }

    private static String message(int number, long at) {
        byte[] out = new byte[ROOM];
        return new String(out, 0, (int) Calls.zs_strerror(number, at, out, out.length), StandardCharsets.US_ASCII);
    }

    private static boolean continues(int number) { return continues(number, 0, null); }

    /** Returns whether a schedule continues, by a number of zsched.h, or throws the fault that it represents. */
    private static boolean continues(int number, long at, String text) {
        switch (number) {
            case OK, DONE -> { return number == OK; }
            case NO_MEMORY -> throw new OutOfMemoryError("zsched: " + message(number, at));
            default -> throw new Fault(number, at, text);
        }
    }
}

package zsched;

import java.time.Duration;
import java.util.Objects;

/**
 * What a retry doesn't know of itself, for {@link Retry#bounds}.
 *
 * @param late how late timers end at most; {@code ChronoUnit.FOREVER.getDuration()} is any time
 * @param steps how many attempts are examined at most
 * @param shortest how long an attempt takes at least
 * @param longest how long an attempt takes at most, whatever the retry sees to; null without a limit
 */
public record Guard(Duration late, long steps, Duration shortest, Duration longest) {
    /** Makes a guard, or throws IllegalArgumentException if a time is below 0. */
    public Guard {
        Retry.check(late, "lateness", 0);
        Retry.check(shortest, "attempt", 0);
        if (longest != null) {
            Retry.check(longest, "attempt", 0);
        }
    }

    /** Returns the guard of timers that end at most so late, which examines 1,000 attempts. */
    public static Guard late(Duration late) {
        return new Guard(Objects.requireNonNull(late), 1000, Duration.ZERO, null);
    }

    /** Sets how many attempts are examined at most. */
    public Guard steps(long steps) { return new Guard(late, steps, shortest, longest); }

    /** Sets how long attempts take. The caller is trusted: the retry doesn't see to it. */
    public Guard trustingAttempts(Duration shortest, Duration longest) {
        return new Guard(late, steps, shortest, Objects.requireNonNull(longest));
    }
}

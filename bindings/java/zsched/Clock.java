package zsched;

import java.time.Duration;

/** A clock, and how to sleep by it, for {@link Retry#clock}. */
public interface Clock {
    /** Returns the nanoseconds since any moment, which is the same for all calls. */
    long nanos();

    /** Waits for a time. If it ends early, it is called again, at most 100 times in a row. */
    void sleep(Duration time) throws InterruptedException;
}

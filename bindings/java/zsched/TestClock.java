package zsched;

import java.time.Duration;
import java.util.concurrent.TimeUnit;

/** A clock for tests, which only sleeps and {@link #advance} move: a retry by it waits for nothing. */
public final class TestClock implements Clock {
    private long nanos;

    /** Makes a clock at 0. */
    public TestClock() { }

    @Override
    public synchronized long nanos() { return nanos; }

    @Override
    public void sleep(Duration time) { advance(time); }

    /** Moves it on, for an attempt that takes so long say; at most to 292 years. */
    public synchronized void advance(Duration time) {
        long more = TimeUnit.NANOSECONDS.convert(time);
        nanos = nanos > Long.MAX_VALUE - more ? Long.MAX_VALUE : nanos + more;
    }
}

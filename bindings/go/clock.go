//go:build cgo && linux && (amd64 || arm64)

package zsched

import (
	"context"
	"sync"
	"time"
)

// Clock is what a Retry reads and sleeps by.
type Clock interface {
	// Now returns the time. It may fall, and counts then as if it stood still.
	Now() time.Time
	// Sleep returns after a time, or when the context ends.
	Sleep(ctx context.Context, wait time.Duration)
}

// system is the clock of a Retry without one.
type system struct{}

func (system) Now() time.Time { return time.Now() }

func (system) Sleep(ctx context.Context, wait time.Duration) {
	timer := time.NewTimer(wait)
	select {
	case <-timer.C:
	case <-ctx.Done():
		timer.Stop()
	}
}

// TestClock is a Clock for tests: nothing sleeps, and its time moves by each wait. So a Retry decides as
// in production. The zero value begins now. Goroutines may share one.
type TestClock struct {
	mutex sync.Mutex
	now   time.Time
}

// Now returns the clock's time.
func (clock *TestClock) Now() time.Time { return clock.moved(0) }

// Sleep moves the clock, and returns at once.
func (clock *TestClock) Sleep(_ context.Context, wait time.Duration) { clock.moved(wait) }

// Advance moves the clock, as an attempt that takes some time does.
func (clock *TestClock) Advance(by time.Duration) { clock.moved(by) }

func (clock *TestClock) moved(by time.Duration) time.Time {
	clock.mutex.Lock()
	defer clock.mutex.Unlock()
	if clock.now.IsZero() {
		clock.now = time.Now()
	}
	clock.now = clock.now.Add(by)
	return clock.now
}

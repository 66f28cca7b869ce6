package zsched

import (
	"context"
	"errors"
	"testing"
	"time"
)

func TestAClockBelowItsStartStandsStill(t *testing.T) {
	ctx, cancel := context.WithTimeout(context.Background(), 10*time.Second)
	defer cancel()
	for _, jitter := range []float64{0, 1} {
		waits := []time.Duration(nil)
		loop := Retry{Schedule: MustCompile("(spaced(10) && recurs(5))"), Jitter: jitter}
		run := run{Retry: &loop, start: time.Now().Add(time.Hour)}
		loop.OnEvent = func(event Event) { waits = append(waits, event.Wait) }
		for begun, number := time.Now(), 1; number <= 3; number++ {
			again, err := run.next(ctx, errors.New("busy"))
			passed, least, most := time.Since(begun), waits[0], time.Duration(11*number)*time.Millisecond
			for _, wait := range waits[1:] {
				least += wait
			}
			if wait := waits[number-1]; !again || err != nil || passed < least || passed > 2*time.Second ||
				wait < 0 || wait > most || jitter == 0 && wait != most {
				t.Error(number, again, err, waits, passed)
			}
		}
	}
}

//go:build cgo && linux && (amd64 || arm64)

package zsched

import (
	"context"
	"errors"
	"fmt"
	"strings"
	"time"
)

// Default is the schedule of a Retry without one: 5 retries after 100, 200, 400, 800 and 1600 ms, each
// shortened by a random part, since its Jitter is then 1 if it is 0.
const Default = "(exponential(100) && recurs(5))"

var standard = MustCompile(Default)

// Retry is a loop of attempts. The zero value retries each error by Default. A Retry has no state, so
// goroutines may share one; a copy may have another Clock or Journal.
type Retry struct {
	Schedule *Schedule // when attempts begin; nil is Default
	// InputOf returns the schedule's input of an error, such as its status; nil is 0.
	InputOf func(error) uint64
	// RetryIf returns whether an error is retried; nil is each. If not, it is returned at once.
	RetryIf func(error) bool
	// RetryAfter returns the least wait after an error, such as RetryAfterOf a header, in whole
	// milliseconds, rounded up; nil, 0 or a negative one is none.
	RetryAfter func(error) time.Duration
	// RetryAfterMost is the longest of these waits, in whole milliseconds, rounded up. A longer one lasts
	// as long. 0 is an hour; below 0 none counts.
	RetryAfterMost time.Duration
	// AttemptMost ends the context of each attempt after this time; 0 is no limit. An attempt that goes on
	// has no other begin beside it.
	AttemptMost time.Duration
	// Deadline is when the last attempt may begin, from the begin of the first; 0 is no limit. A call
	// gives up at once if the next attempt can't begin by then.
	Deadline time.Duration
	// Jitter shortens each wait by a random part of it, of at most this share, from 0 to 1, in whole
	// percent, so that the attempts of many clients spread.
	Jitter float64
	Budget *Budget // what this Retry shares with others; nil is none
	// OnEvent is called before each wait, and when a call ends.
	OnEvent func(Event)
	Name    string   // the name in events
	Clock   Clock    // nil is the system's; a test sets a TestClock
	Journal *Journal // where the state of a call is stored; nil is nowhere
}

// Why says why a call ended.
type Why string

// The reasons of an Event. Before a wait it has none.
const (
	Succeeded    Why = "succeeded"   // an attempt had no error
	GaveUp       Why = "gave up"     // the schedule is done
	PastDeadline Why = "deadline"    // the next attempt can't begin in time
	Cancelled    Why = "cancelled"   // the context ended
	NoBudget     Why = "budget"      // the budget has too few tokens
	NotRetried   Why = "not retried" // RetryIf returned false, or the error is Permanent
)

// Event is an attempt that ended, or the end of a call whose context had ended before an attempt.
type Event struct {
	Name    string        // that of the Retry
	Attempt int           // the number of the attempt, from 1; 0 if there was none
	Err     error         // its error, or nil
	Elapsed time.Duration // from the begin of the first attempt to the end of this one
	Wait    time.Duration // from there to the begin of the next one; 0 if the call ends
	Why     Why           // why the call ended, or empty before a wait
}

type permanent struct{ error }

// Unwrap returns the error.
func (err permanent) Unwrap() error { return err.error }

// Permanent returns an error after which a Retry doesn't retry, but returns err. It is nil if err is nil.
func Permanent(err error) error {
	if err == nil {
		return nil
	}
	return permanent{err}
}

// Do calls attempt until there is no error or the schedule is done, and sleeps between two attempts. It
// returns the last error. If the context ends in an attempt or a sleep, or will end before the next
// attempt, the last error is returned in an *Ended, which is the context's error too. If it has ended
// before the call, its error is returned, and there is no attempt. An option that no Retry can have is
// an error before any attempt.
//
// Plan returns when the next attempt begins, by the monotonic clock, so Bounds hold of each call; a
// machine may wake late, and a wait after an attempt of less than 1 millisecond may be 1 millisecond
// longer. After an attempt that failed come Permanent, RetryIf, the context, InputOf, RetryAfter, the
// budget, Plan, the deadlines, OnEvent and the sleep, in this order.
func (retry *Retry) Do(ctx context.Context, attempt func(context.Context) error) error {
	if attempt == nil {
		return errNoAttempt
	}
	_, err := RetryValue(ctx, retry, func(ctx context.Context) (struct{}, error) { return struct{}{}, attempt(ctx) })
	return err
}

// RetryValue does what retry.Do does, and returns what the last attempt returned.
func RetryValue[T any](ctx context.Context, retry *Retry,
	attempt func(context.Context) (T, error)) (value T, err error) {
	if attempt == nil {
		return value, errNoAttempt
	}
	if err = retry.check(); err != nil {
		return value, err
	}
	if ctx == nil {
		ctx = context.Background()
	}
	run := run{Retry: retry}
	if ctx.Err() != nil {
		return value, run.ended(cancelling(ctx), Event{}, ctx.Err())
	}
	if retry.Journal != nil {
		if err = run.resume(ctx); err != nil {
			return value, err
		}
		defer run.file.close()
	} else {
		run.start = run.now()
	}
	for {
		if run.attempts++; run.file != nil {
			if err = run.plannedAsKilled(err); err != nil {
				return value, err
			}
		}
		value, err = limited(ctx, retry.AttemptMost, attempt)
		if err == nil {
			return value, run.succeeded()
		}
		if again, ended := run.next(ctx, err); !again {
			return value, ended
		}
	}
}

var errNoAttempt = errors.New("zsched: the attempt is nil")

// check returns an error if no Retry can have these options.
func (retry *Retry) check() error {
	if retry.Schedule != nil && retry.Schedule.program == nil {
		return errors.New("zsched: the schedule is a zero value: Compile makes one")
	}
	if retry.AttemptMost < 0 || retry.Deadline < 0 {
		return fmt.Errorf("zsched: an AttemptMost of %v or a Deadline of %v is below 0", retry.AttemptMost, retry.Deadline)
	}
	_, err := percentOf(retry.Jitter)
	return err
}

// policy returns the schedule before any step.
func (retry *Retry) policy() *Schedule {
	if retry.Schedule == nil {
		return standard
	}
	return retry.Schedule
}

// jitter returns the share that jitter may take off.
func (retry *Retry) jitter() float64 {
	if retry.Schedule == nil && retry.Jitter == 0 {
		return 1
	}
	return retry.Jitter
}

// now returns the time of the loop's clock.
func (retry *Retry) now() time.Time {
	if retry.Clock == nil {
		return time.Now()
	}
	return retry.Clock.Now()
}

// limited makes an attempt, with a context that ends after the longest time of one, if there is any.
func limited[T any](ctx context.Context, most time.Duration, attempt func(context.Context) (T, error)) (T, error) {
	if most > 0 {
		limit, cancel := context.WithTimeout(ctx, most)
		defer cancel()
		ctx = limit
	}
	return attempt(ctx)
}

// run is one call of a Retry.
type run struct {
	*Retry
	schedule *Schedule // it begins at the first error; most calls have none
	turn     Turn
	start    time.Time
	attempts int
	file     *journalFile // where the state is stored, or nil
}

// succeeded ends a call after an attempt without an error.
func (run *run) succeeded() error {
	if run.Budget != nil {
		run.Budget.Add()
	}
	if run.OnEvent != nil {
		_ = run.ended(Succeeded, Event{Attempt: run.attempts, Elapsed: run.now().Sub(run.start)}, nil)
	}
	if run.file != nil {
		return run.file.remove()
	}
	return nil
}

// ended calls OnEvent at the end of a call, and returns an error.
func (run *run) ended(why Why, event Event, err error) error {
	if event.Why, event.Name = why, run.Name; run.OnEvent != nil {
		run.OnEvent(event)
	}
	return err
}

// next plans the next attempt after one that failed, and sleeps. It returns whether another attempt
// follows, else the error of the whole call.
func (run *run) next(ctx context.Context, failure error) (bool, error) {
	now := run.now()
	event := Event{Name: run.Name, Attempt: run.attempts, Err: failure, Elapsed: now.Sub(run.start)}
	if event.Elapsed < 0 {
		event.Elapsed = 0
	}
	var last permanent
	if errors.As(failure, &last) {
		event.Err = last.error
		return false, run.stored(nil, event, run.ended(NotRetried, event, last.error))
	}
	if run.RetryIf != nil && !run.RetryIf(failure) {
		return false, run.stored(nil, event, run.ended(NotRetried, event, failure))
	}
	if cause := ctx.Err(); cause != nil {
		return false, run.ended(cancelling(ctx), event, &Ended{Last: failure, Cause: cause})
	}
	begin, why, err := run.plan(event.Elapsed, failure)
	if err != nil {
		return false, err
	}
	if why != "" {
		return false, run.stored(nil, event, run.ended(why, event, failure))
	}
	if err = run.stored(&begin, event, nil); err != nil {
		return false, err
	}
	event.Wait = begin - event.Elapsed
	until := now.Add(event.Wait)
	if end, ok := ctx.Deadline(); ok && !until.Before(end) {
		event.Wait = 0
		return false, run.ended(PastDeadline, event, &Ended{Last: failure, Cause: context.DeadlineExceeded})
	}
	if run.OnEvent != nil {
		run.OnEvent(event)
	}
	err = run.sleep(ctx, until)
	if ctx.Err() != nil {
		event.Wait = 0
		return false, run.ended(cancelling(ctx), event, &Ended{Last: failure, Cause: ctx.Err()})
	}
	if err != nil {
		return false, &Ended{Last: failure, Cause: err}
	}
	run.turn.Began = run.now().Sub(run.start)
	return true, nil
}

// plan steps the schedule after an attempt that failed. It returns when the next one begins, or why there
// is none.
func (run *run) plan(elapsed time.Duration, failure error) (time.Duration, Why, error) {
	turn := &run.turn
	turn.Ended, turn.Jitter, turn.Longest = elapsed, run.jitter(), run.RetryAfterMost
	if run.InputOf != nil {
		turn.Input = run.InputOf(failure)
	}
	if run.RetryAfter != nil {
		turn.Least = run.RetryAfter(failure)
	}
	if run.Budget != nil && !run.Budget.Take() {
		return 0, NoBudget, nil
	}
	if run.schedule == nil {
		run.schedule = run.policy().Begin()
	}
	begin, ok, err := run.schedule.Plan(*turn)
	if err == nil && !ok {
		return 0, GaveUp, nil
	}
	if err == nil && run.Deadline > 0 && begin > run.Deadline {
		return 0, PastDeadline, nil
	}
	return begin, "", err
}

// earlyMost is how often a sleep that returned early is repeated.
const earlyMost = 100

// sleep sleeps until a moment of the clock, or until the context ends.
func (run *run) sleep(ctx context.Context, until time.Time) error {
	clock := run.Clock
	if clock == nil {
		clock = system{}
	}
	for early := 0; early <= earlyMost && ctx.Err() == nil; early++ {
		rest := until.Sub(clock.Now())
		if rest <= 0 {
			return nil
		}
		clock.Sleep(ctx, rest)
	}
	if ctx.Err() != nil || until.Sub(clock.Now()) <= 0 {
		return nil
	}
	return fmt.Errorf("zsched: Sleep of the Clock returned early %d times: in tests set Clock to a *zsched.TestClock",
		earlyMost+1)
}

// cancelling returns why a call ends whose context ended.
func cancelling(ctx context.Context) Why {
	if errors.Is(ctx.Err(), context.DeadlineExceeded) {
		return PastDeadline
	}
	return Cancelled
}

// Guard changes what Bounds of a Retry look at.
type Guard func(*Driver)

// Steps sets the number of attempts that are examined at most, which is 1000 without it.
func Steps(most uint64) Guard { return func(it *Driver) { it.Steps = most } }

// TrustingAttempts says how long attempts take at least and at most. It is trusted: a Retry can't end an
// attempt that doesn't heed its context.
func TrustingAttempts(shortest, longest time.Duration) Guard {
	return func(it *Driver) { it.Least, it.Most = shortest, longest }
}

// Bounds returns what each call does at most, for every error, if timers end at most `late` late;
// math.MaxInt64 is any lateness. They follow from the options: the schedule, Jitter, RetryAfter,
// RetryAfterMost, AttemptMost, if attempts heed their context, and Deadline. With a Budget or a Deadline
// the first attempt can be the last one. Without AttemptMost and TrustingAttempts the end has no bound.
// The error is that of an option that no Retry can have, or a *Fault.
func (retry *Retry) Bounds(late time.Duration, more ...Guard) (Bounds, error) {
	if err := retry.check(); err != nil {
		return Bounds{}, err
	}
	driver := Driver{Jitter: retry.jitter(), Late: late}
	for _, change := range more {
		change(&driver)
	}
	if late < 0 || driver.Least < 0 || driver.Most < 0 {
		return Bounds{}, fmt.Errorf("zsched: a lateness of %v, or attempts of %v to %v, are below 0", late, driver.Least,
			driver.Most)
	}
	if retry.Journal != nil {
		// A killed attempt counts as one that failed at once.
		driver.Least = 0
	}
	if limit := sum(retry.AttemptMost, late); retry.AttemptMost > 0 && limit < forever &&
		(driver.Most <= 0 || limit < driver.Most) {
		driver.Most = limit
	}
	if driver.Asked = retry.RetryAfterMost; driver.Asked == 0 {
		driver.Asked = time.Hour
	}
	if retry.RetryAfter == nil {
		driver.Asked = 0
	}
	bounds, err := BoundsOf(retry.policy().text, driver)
	if err != nil {
		return Bounds{}, err
	}
	if retry.Budget != nil || retry.Deadline > 0 {
		bounds.Least = 1
	}
	if waits := sum(retry.Deadline, late); retry.Deadline > 0 && waits < forever {
		bounds.within(waits, driver.Most)
	}
	return bounds, nil
}

// within lowers the bounds to those of a loop whose last attempt begins at most some time after the first.
func (bounds *Bounds) within(waits, attempt time.Duration) {
	if bounds.Longest > waits {
		bounds.Longest = waits
	}
	if !bounds.HasTotal || bounds.Total > waits {
		bounds.HasTotal, bounds.Total = true, waits
	}
	if end := sum(waits, attempt); attempt > 0 && end < forever && (!bounds.HasLongestRun || bounds.LongestRun > end) {
		bounds.HasLongestRun, bounds.LongestRun = true, end
	}
}

// sum returns the sum of two times, at most the longest Duration.
func sum(one, other time.Duration) time.Duration {
	if other > 0 && one > forever-other {
		return forever
	}
	return one + other
}

// RetryAfterOf returns how long a header Retry-After asks to wait: seconds, or an HTTP date, which counts
// from now. Anything else, and a date that has passed, is 0, which is no wait.
func RetryAfterOf(header string, now time.Time) time.Duration {
	header = strings.TrimSpace(header)
	if header != "" && strings.Trim(header, "0123456789") == "" {
		wait := time.Duration(0)
		for _, digit := range header {
			if wait > (forever-9*time.Second)/10 {
				return forever
			}
			wait = 10*wait + time.Duration(digit-'0')*time.Second
		}
		return wait
	}
	for _, form := range []string{"Mon, 02 Jan 2006 15:04:05 GMT", "Monday, 02-Jan-06 15:04:05 GMT", time.ANSIC} {
		if at, err := time.Parse(form, header); err == nil && at.After(now) {
			return at.Sub(now)
		}
	}
	return 0
}

// Ended is the error of a context that ended in an attempt or in a wait, or of a journal or a clock that
// failed between two attempts.
type Ended struct {
	Last  error // the error of the last attempt
	Cause error // the error of the context, the journal or the clock
}

// Error returns the text of both errors.
func (ended *Ended) Error() string { return ended.Last.Error() + " (" + ended.Cause.Error() + ")" }

// Unwrap returns the error of the last attempt.
func (ended *Ended) Unwrap() error { return ended.Last }

// As finds an error of the last attempt, or else of the cause.
func (ended *Ended) As(target any) bool {
	return errors.As(ended.Last, target) || errors.As(ended.Cause, target)
}

// Is returns whether the cause is target, since it is that error too.
func (ended *Ended) Is(target error) bool { return errors.Is(ended.Cause, target) }

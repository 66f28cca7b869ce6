// Package zsched_test tests what only the binding for Go has.
package zsched_test

import (
	"context"
	"errors"
	"fmt"
	"io"
	"math"
	"os"
	"strings"
	"sync"
	"sync/atomic"
	"testing"
	"time"

	zsched "github.com/zsched/zsched/bindings/go"
)

var errBusy = errors.New("busy")

func busy(context.Context) error { return errBusy }

// retry returns a Retry by a text.
func retry(text string) *zsched.Retry { return &zsched.Retry{Schedule: zsched.MustCompile(text)} }

func TestNoFunctionIsNoPanic(t *testing.T) {
	const noAttempt = "zsched: the attempt is nil"
	if err := retry("recurs(2)").Do(nil, busy); err != errBusy {
		t.Error(err)
	}
	if err := retry("recurs(2)").Do(context.Background(), nil); err == nil || err.Error() != noAttempt {
		t.Error(err)
	}
	_, err := zsched.RetryValue[int](context.Background(), retry("recurs(2)"), nil)
	if err == nil || err.Error() != noAttempt {
		t.Error(err)
	}
	none, fault := new(zsched.Schedule), new(zsched.Fault)
	if err := (&zsched.Retry{Schedule: none}).Do(context.Background(), busy); err == nil || err == errBusy {
		t.Error(err)
	}
	_, _, after := none.AfterMillis(1, 2)
	_, _, plan := none.Begin().Plan(zsched.Turn{})
	_, output := none.Clone().Output()
	for _, err := range []error{after, plan, output} {
		if !errors.As(err, &fault) || fault.Number != zsched.NoProgram {
			t.Error(err)
		}
	}
}

func TestErrorsThatArentRetriedAreReturnedAtOnceAsTheyAre(t *testing.T) {
	attempts, it := 0, retry("forever")
	err := it.Do(context.Background(), func(context.Context) error {
		attempts++
		return fmt.Errorf("fetch: %w", zsched.Permanent(errBusy))
	})
	if attempts != 1 || err != errBusy || zsched.Permanent(nil) != nil {
		t.Error(attempts, err)
	}
	budget := zsched.NewBudget(9, 1)
	it.Budget, it.RetryIf = budget, func(err error) bool { return err == errBusy }
	err = it.Do(context.Background(), func(context.Context) error {
		if attempts++; attempts < 4 {
			return errBusy
		}
		return io.EOF
	})
	if attempts != 4 || err != io.EOF || budget.Tokens() != 7 {
		t.Error(attempts, err, budget.Tokens())
	}
}

func TestAContextThatEndsInAWaitIsBothErrors(t *testing.T) {
	ctx, cancel := context.WithCancel(context.Background())
	time.AfterFunc(20*time.Millisecond, cancel)
	if err := retry("spaced(100000)").Do(ctx, busy); !errors.Is(err, errBusy) || !errors.Is(err, context.Canceled) {
		t.Error(err)
	}
}

func TestACallGivesUpAtOnceIfItsContextEndsBeforeTheNextAttempt(t *testing.T) {
	ctx, cancel := context.WithTimeout(context.Background(), 50*time.Second)
	defer cancel()
	long := func(error) time.Duration { return math.MaxInt64 }
	for _, it := range []zsched.Retry{{}, {RetryAfter: long}, {RetryAfter: long, RetryAfterMost: math.MaxInt64}} {
		begun, why := time.Now(), zsched.Why("")
		it.Schedule = zsched.MustCompile("spaced(100000)")
		it.OnEvent = func(event zsched.Event) { why = event.Why }
		err := it.Do(ctx, busy)
		if !errors.Is(err, errBusy) || !errors.Is(err, context.DeadlineExceeded) || why != zsched.PastDeadline ||
			err.Error() != "busy (context deadline exceeded)" || time.Since(begun) > 10*time.Second {
			t.Error(err, why)
		}
	}
}

func TestADeadlineEndsACallAtOnce(t *testing.T) {
	for deadline, wanted := range map[time.Duration]int{306 * time.Millisecond: 4, 305 * time.Millisecond: 3} {
		attempts, clock, it := 0, new(zsched.TestClock), retry("spaced(100)")
		begun, why := clock.Now(), zsched.Why("")
		it.Clock, it.Deadline, it.OnEvent = clock, deadline, func(event zsched.Event) { why = event.Why }
		err := it.Do(context.Background(), func(context.Context) error {
			attempts++
			clock.Advance(time.Duration(attempts) * time.Millisecond)
			return errBusy
		})
		// Attempts of 1, 2, 3 ms begin at 0, 101, 203 and 306 ms: a wait counts from the millisecond of an end.
		if passed := clock.Now().Sub(begun); err != errBusy || why != zsched.PastDeadline || attempts != wanted ||
			passed > deadline+4*time.Millisecond {
			t.Error(err, why, attempts, passed)
		}
	}
}

type coded struct{ code int }

func (coded coded) Error() string { return "coded" }

func TestAContextThatEndsInAnAttemptTakesNoToken(t *testing.T) {
	ctx, cancel := context.WithCancel(context.Background())
	budget, why, it := zsched.NewBudget(9, 1), []zsched.Why(nil), retry("spaced(1)")
	it.Budget, it.OnEvent = budget, func(event zsched.Event) { why = append(why, event.Why) }
	err := it.Do(ctx, func(context.Context) error {
		cancel()
		return coded{7}
	})
	var found coded
	if !errors.Is(err, context.Canceled) || !errors.As(err, &found) || found.code != 7 || budget.Tokens() != 9 ||
		len(why) != 1 || why[0] != zsched.Cancelled {
		t.Error(err, found, budget.Tokens(), why)
	}
}

func TestAWaitIsNotNegative(t *testing.T) {
	waits, it := 0, retry("recurs(3)")
	it.OnEvent = func(event zsched.Event) {
		if event.Why == "" {
			waits++
		}
		if event.Wait < 0 {
			t.Error(event)
		}
	}
	_ = it.Do(context.Background(), func(context.Context) error {
		time.Sleep(1700 * time.Microsecond)
		return errBusy
	})
	if waits != 3 {
		t.Error(waits)
	}
}

func next(t *testing.T, schedule *zsched.Schedule, moment uint64) uint64 {
	next, ok, err := schedule.AfterMillis(moment, 0)
	if !ok || err != nil {
		t.Error(schedule, moment, ok, err)
	}
	return next
}

func TestAScheduleStepsWithoutItsClones(t *testing.T) {
	schedule := zsched.MustCompile("(linear(10) && recurs(9))")
	begun := schedule.Begin()
	if first := next(t, schedule, 1); first != 11 {
		t.Error(first)
	}
	clone, fresh := schedule.Clone(), schedule.Begin()
	resumed, err := zsched.Resume(schedule.String(), schedule.State())
	if err != nil || schedule.String() != "(linear(10) && recurs(9))" {
		t.Error(schedule, err)
	}
	for it, wanted := range map[*zsched.Schedule]uint64{schedule: 40, clone: 40, resumed: 40, fresh: 30, begun: 30} {
		if found := next(t, it, 20); found != wanted {
			t.Error(found, wanted)
		}
	}
	fault := new(zsched.Fault)
	for _, words := range [][]uint64{nil, schedule.State()[1:]} {
		if _, err := zsched.Resume(schedule.String(), words); !errors.As(err, &fault) || fault.Number != zsched.OtherVersion {
			t.Error(err)
		}
	}
	if _, err := zsched.Resume("recurs(9)", schedule.State()); !errors.As(err, &fault) || fault.Number != zsched.OtherState {
		t.Error(err)
	}
}

func TestAnOutputFollowsAStepAndHasAnyLength(t *testing.T) {
	fault := new(zsched.Fault)
	for _, digits := range []string{"1", "10", "100", "1000"} {
		for depth := 0; depth < 40; depth++ {
			schedule := zsched.MustCompile(strings.Repeat("(", depth) + "linear(" + digits + ")" +
				strings.Repeat(" && recurs(9))", depth))
			if out, err := schedule.Output(); out != "" || !errors.As(err, &fault) || fault.Number != zsched.NoStep {
				t.Error(out, err)
			}
			next(t, schedule, 1)
			wanted := strings.Repeat("(", depth) + digits + strings.Repeat(",0)", depth)
			if out, err := schedule.Output(); out != wanted || err != nil {
				t.Error(out, err)
			}
		}
	}
}

func TestATurnMayHaveAnyTime(t *testing.T) {
	const most = time.Duration(math.MaxInt64)
	zero, ms := func() uint32 { return 0 }, time.Millisecond
	for _, it := range []struct {
		text  string
		turn  zsched.Turn
		begin time.Duration
	}{
		{"spaced(30)", zsched.Turn{Began: -1, Ended: -most, Least: -most}, 31 * ms},
		{"spaced(30)", zsched.Turn{Ended: 5900 * time.Microsecond}, 35 * ms},
		{"spaced(30)", zsched.Turn{Least: 40*ms + 1}, 41 * ms},
		{"spaced(30)", zsched.Turn{Least: most, Longest: 50*ms - 1}, 50 * ms},
		{"spaced(30)", zsched.Turn{Least: most}, time.Hour},
		{"spaced(30)", zsched.Turn{Least: most, Longest: -1}, 31 * ms},
		{"spaced(30)", zsched.Turn{Least: most, Longest: most}, most},
		{"spaced(30)", zsched.Turn{Ended: ms, Jitter: 0.5, Draw: zero}, 31 * ms},
		{"spaced(30)", zsched.Turn{Ended: ms, Jitter: 0.5, Draw: func() uint32 { return 1 << 31 }}, 23500 * time.Microsecond},
		{"spaced(9223372036854)", zsched.Turn{Ended: most}, most},
	} {
		begin, ok, err := zsched.MustCompile(it.text).Plan(it.turn)
		if begin != it.begin || !ok || err != nil {
			t.Error(it, begin, ok, err)
		}
	}
}

func TestAStepAllocatesNothing(t *testing.T) {
	schedule, moment := zsched.MustCompile("((exponential(10) || spaced(50)) && recurs(100000))"), uint64(0)
	turn := zsched.Turn{Jitter: 0.5}
	if count := testing.AllocsPerRun(1000, func() { moment = next(t, schedule, moment) }); count != 0 {
		t.Error(count)
	}
	schedule = schedule.Begin()
	count := testing.AllocsPerRun(1000, func() { turn.Ended, _, _ = schedule.Plan(turn) })
	if count != 0 || turn.Ended == 0 {
		t.Error(count, turn.Ended)
	}
}

func TestRetryAfterIsHonouredUpToItsMost(t *testing.T) {
	for most, wanted := range map[time.Duration]time.Duration{
		-1: 0, 0: time.Hour, 20 * time.Millisecond: 20 * time.Millisecond, 1: time.Millisecond} {
		waited, it := time.Duration(-1), retry("recurs(1)")
		it.RetryAfter, it.RetryAfterMost = func(error) time.Duration { return math.MaxInt64 }, most
		it.Clock = new(zsched.TestClock)
		it.OnEvent = func(event zsched.Event) {
			if event.Why == "" {
				waited = event.Wait
			}
		}
		err := it.Do(context.Background(), busy)
		if err != errBusy || waited < wanted || waited > wanted+time.Millisecond {
			t.Error(err, most, waited)
		}
	}
}

func TestABoundIsHeldOrNot(t *testing.T) {
	// 6 attempts, and 3100 milliseconds
	ms := time.Millisecond
	bounds, err := zsched.BoundsOf("(exponential(100) && recurs(5))", zsched.Driver{})
	if err != nil || !bounds.Within(6, 3100*ms) || bounds.Within(5, 3100*ms) || bounds.Within(6, 3099*ms) {
		t.Error(bounds, err)
	}
	driver := zsched.Driver{Steps: 9, Most: 10 * ms, Jitter: 0.5, Asked: 500 * ms, Late: ms}
	if bounds, err = zsched.BoundsOf("(spaced(100) && recurs(2))", driver); err != nil ||
		!bounds.Within(3, 1002*ms) || bounds.Within(3, 1001*ms) || !bounds.EndsWithin(1033*ms) || bounds.EndsWithin(1032*ms) {
		t.Error(bounds, err)
	}
	if bounds, err = zsched.BoundsOf("spaced(1)", zsched.Driver{}); err != nil || bounds.Within(1<<63, math.MaxInt64) {
		t.Error(bounds, err)
	}
	// No Duration has 300 years.
	long := zsched.Driver{Most: math.MaxInt64}
	if bounds, err = zsched.BoundsOf("(spaced(9467280000000) && recurs(1))", long); err != nil || !bounds.HasMost ||
		bounds.HasTotal || bounds.HasLongestRun || bounds.Longest != math.MaxInt64 || bounds.EndsWithin(math.MaxInt64) {
		t.Error(bounds, err)
	}
}

func TestTheDefaultHasTheBoundsOfThePage(t *testing.T) {
	bounds, err := new(zsched.Retry).Bounds(0, zsched.TrustingAttempts(0, 5*time.Second))
	said := fmt.Sprintf("at most %d attempts, waits of at most %v and of %v together", bounds.Most, bounds.Longest,
		bounds.Total)
	page, failed := os.ReadFile("README.md")
	if err != nil || failed != nil || !bounds.HasMost || !bounds.HasTotal || !strings.Contains(string(page), said) {
		t.Error(said, err, failed)
	}
	seen := map[time.Duration]bool{}
	it := zsched.Retry{Clock: new(zsched.TestClock), OnEvent: func(event zsched.Event) { seen[event.Wait] = true }}
	for i := 0; i < 5; i++ {
		_ = it.Do(context.Background(), busy)
	}
	if len(seen) < 10 {
		t.Error("waits aren't drawn", seen)
	}
}

func TestEachOptionOfALoopChangesItsBounds(t *testing.T) {
	ms, s, trusted := time.Millisecond, time.Second, zsched.TrustingAttempts(0, 5*time.Second)
	asked := func(error) time.Duration { return time.Hour }
	same := func(*zsched.Retry) {}
	for name, it := range map[string]struct {
		change func(*zsched.Retry)
		late   time.Duration
		more   []zsched.Guard
		// attempts, waits and the end
		least, most         uint64
		longest, total, run time.Duration
	}{
		"none":         {same, 0, nil, 9, 9, 5 * s, 16300 * ms, 0},
		"trust":        {same, 0, []zsched.Guard{trusted}, 9, 9, 5 * s, 16300 * ms, 61301 * ms},
		"late":         {same, 100 * ms, []zsched.Guard{trusted}, 9, 9, 5100 * ms, 17100 * ms, 62101 * ms},
		"any lateness": {same, math.MaxInt64, []zsched.Guard{trusted}, 9, 9, math.MaxInt64, 0, 0},
		"steps":        {same, 0, []zsched.Guard{trusted, zsched.Steps(3)}, 4, 0, 400 * ms, 0, 0},
		"limit":        {func(it *zsched.Retry) { it.AttemptMost = s }, 0, nil, 9, 9, 5 * s, 16300 * ms, 25301 * ms},
		"late limit":   {func(it *zsched.Retry) { it.AttemptMost = s }, 100 * ms, nil, 9, 9, 5100 * ms, 17100 * ms, 27001 * ms},
		"least waits": {func(it *zsched.Retry) { it.RetryAfter = asked }, 0, []zsched.Guard{trusted}, 9, 9, time.Hour,
			8 * time.Hour, 8*time.Hour + 45001*ms},
		"their most": {func(it *zsched.Retry) { it.RetryAfter, it.RetryAfterMost = asked, 10*s }, 0, []zsched.Guard{trusted},
			9, 9, 10 * s, 80 * s, 125001 * ms},
		"no least wait": {func(it *zsched.Retry) { it.RetryAfter, it.RetryAfterMost = asked, -1 }, 0, []zsched.Guard{trusted},
			9, 9, 5 * s, 16300 * ms, 61301 * ms},
		"deadline": {func(it *zsched.Retry) { it.Deadline = 4 * s }, 100 * ms, []zsched.Guard{trusted}, 1, 9, 4100 * ms,
			4100 * ms, 9100 * ms},
		"budget": {func(it *zsched.Retry) { it.Budget = zsched.NewBudget(10, 0.1) }, 0, nil, 1, 9, 5 * s, 16300 * ms, 0},
		"schedule": {func(it *zsched.Retry) { it.Schedule = zsched.MustCompile("(spaced(9) && recurs(1))") }, 0, nil, 2, 2,
			9 * ms, 9 * ms, 0},
	} {
		loop := retry("((exponential(100) || spaced(5000)) && recurs(8))")
		it.change(loop)
		bounds, err := loop.Bounds(it.late, it.more...)
		if err != nil || bounds.Least != it.least || bounds.Most != it.most || bounds.Longest != it.longest ||
			bounds.Total != it.total || bounds.LongestRun != it.run || bounds.HasLongestRun != (it.run > 0) {
			t.Error(name, bounds, err)
		}
		if is := it.run > 0 && it.run < 90*s; bounds.EndsWithin(90*s) != is {
			t.Error(name, bounds)
		}
	}
	// Jitter lets more attempts begin in a time.
	loop := retry("(spaced(400) && elapsed).whileOutput(_2 < 2000)")
	whole, _ := loop.Bounds(0)
	loop.Jitter = 0.5
	if half, _ := loop.Bounds(0); whole.Most != 6 || half.Most != 11 {
		t.Error(whole, half)
	}
	// A killed attempt of a journal takes no time.
	slow, _ := loop.Bounds(0, zsched.TrustingAttempts(s, s))
	loop.Journal = zsched.NewJournal("job.journal")
	if killed, _ := loop.Bounds(0, zsched.TrustingAttempts(s, s)); slow.Most >= 11 || killed.Most != 11 {
		t.Error(slow, killed)
	}
	_, late := loop.Bounds(-1)
	_, least := loop.Bounds(0, zsched.TrustingAttempts(-s, s))
	if _, most := loop.Bounds(0, zsched.TrustingAttempts(s, -s)); late == nil || least == nil || most == nil {
		t.Error(late, least, most)
	}
}

func TestATestClockDecidesAsInProduction(t *testing.T) {
	clock, events := new(zsched.TestClock), []zsched.Event(nil)
	loop := retry("((exponential(100) || spaced(5000)) && recurs(8))")
	begun, attempts := time.Now(), 0
	loop.Clock, loop.Name, loop.OnEvent = clock, "fetch", func(event zsched.Event) { events = append(events, event) }
	err := loop.Do(context.Background(), func(context.Context) error {
		attempts++
		clock.Advance(5 * time.Millisecond)
		return errBusy
	})
	if err != errBusy || attempts != 9 || len(events) != 9 || time.Since(begun) > 5*time.Second {
		t.Fatal(err, attempts, events)
	}
	elapsed := 5 * time.Millisecond
	for i, wait := range []time.Duration{100, 200, 400, 800, 1600, 3200, 5000, 5000, 0} {
		event := zsched.Event{Name: "fetch", Attempt: i + 1, Err: errBusy, Elapsed: elapsed, Wait: wait * time.Millisecond}
		if wait == 0 {
			event.Why = zsched.GaveUp
		}
		if events[i] != event {
			t.Error(events[i], event)
		}
		elapsed += event.Wait + 5*time.Millisecond
	}
}

// stands is a Clock whose Sleep returns at once, as a stub's does.
type stands struct{ slept int }

func (*stands) Now() time.Time                             { return time.Unix(0, 0) }
func (clock *stands) Sleep(context.Context, time.Duration) { clock.slept++ }

func TestASleepThatReturnsEarlyIsAnErrorThatNamesTheTestClock(t *testing.T) {
	clock, loop, attempts := new(stands), retry("spaced(1000)"), 0
	loop.Clock = clock
	err := loop.Do(context.Background(), func(context.Context) error {
		attempts++
		return errBusy
	})
	if attempts != 1 || clock.slept != 101 || !errors.Is(err, errBusy) ||
		!strings.Contains(err.Error(), "*zsched.TestClock") {
		t.Error(attempts, clock.slept, err)
	}
}

func TestAnEventSaysWhyACallEnds(t *testing.T) {
	ended, cancel := context.WithCancel(context.Background())
	cancel()
	late, free := context.WithDeadline(context.Background(), time.Now().Add(-time.Second))
	defer free()
	for _, it := range []struct {
		loop    zsched.Retry
		ctx     context.Context
		failing error
		wanted  string
	}{
		{zsched.Retry{}, context.Background(), nil, "1 succeeded <nil>"},
		{zsched.Retry{Schedule: zsched.MustCompile("recurs(0)")}, nil, errBusy, "1 gave up busy"},
		{zsched.Retry{Deadline: 1}, nil, errBusy, "1 deadline busy"},
		{zsched.Retry{Budget: zsched.NewBudget(1, 0)}, nil, errBusy, "1 budget busy"},
		{zsched.Retry{RetryIf: func(error) bool { return false }}, nil, errBusy, "1 not retried busy"},
		{zsched.Retry{}, nil, zsched.Permanent(errBusy), "1 not retried busy"},
		{zsched.Retry{}, ended, nil, "0 cancelled <nil>"},
		{zsched.Retry{}, late, nil, "0 deadline <nil>"},
	} {
		said := []string(nil)
		it.loop.OnEvent = func(event zsched.Event) {
			said = append(said, fmt.Sprint(event.Attempt, " ", event.Why, " ", event.Err))
		}
		err := it.loop.Do(it.ctx, func(context.Context) error { return it.failing })
		if len(said) != 1 || said[0] != it.wanted || it.ctx == ended && err != context.Canceled {
			t.Error(said, it.wanted, err)
		}
	}
}

func TestARetryAfterIsSecondsOrADate(t *testing.T) {
	now := time.Date(2026, 11, 29, 22, 0, 0, 0, time.UTC)
	for header, wanted := range map[string]time.Duration{
		"120": 2 * time.Minute, " 7 ": 7 * time.Second, "0": 0, "": 0, "-3": 0, "1.5": 0, "soon": 0, "1e3": 0, "0x10": 0,
		"99999999999999999999": math.MaxInt64, "9000000000": 9000000000 * time.Second, "9223372037": math.MaxInt64,
		"Sun, 29 Nov 2026 22:00:30 GMT": 30 * time.Second, "Sun, 29 Nov 2026 21:59:59 GMT": 0,
		"Sunday, 29-Nov-26 22:01:00 GMT": time.Minute, "Sun Nov 29 22:00:01 2026": time.Second,
		"Sun, 29 Nov 2026 22:00:30": 0, "2026-11-29T22:00:30Z": 0,
	} {
		if found := zsched.RetryAfterOf(header, now); found != wanted {
			t.Error(header, found, wanted)
		}
	}
}

func panics(call func()) (is bool) {
	defer func() { is = recover() != nil }()
	call()
	return
}

func TestWrongTextsAndNumbersAreRefused(t *testing.T) {
	var fault *zsched.Fault
	schedule, err := zsched.Compile("recurs(")
	if !errors.As(err, &fault) || fault.At != 7 || schedule != nil || !panics(func() { zsched.MustCompile("recurs(") }) {
		t.Error(schedule, err)
	}
	if _, err = zsched.Compile("forever.collectAll"); !errors.As(err, &fault) || fault.Number != zsched.KeepsList {
		t.Error(err)
	}
	if err.Error() != "an output with a list has no state of fixed size\nforever.collectAll" ||
		fault.Text != "forever.collectAll" {
		t.Error(err)
	}
	_, err = zsched.BoundsOf("forever", zsched.Driver{Least: 6 * time.Millisecond, Most: 5 * time.Millisecond})
	if !errors.As(err, &fault) || fault.Number != zsched.NoDriver {
		t.Error(err)
	}
	for _, wrong := range []float64{-1, math.NaN(), math.Inf(1)} {
		if !panics(func() { zsched.NewBudget(wrong, 0.1) }) || !panics(func() { zsched.NewBudget(10, wrong) }) {
			t.Error(wrong)
		}
		attempts, loop := 0, retry("recurs(2)")
		loop.Jitter = wrong
		err := loop.Do(context.Background(), func(context.Context) error {
			attempts++
			return errBusy
		})
		_, guard := loop.Bounds(0)
		_, _, plan := zsched.MustCompile("forever").Plan(zsched.Turn{Jitter: wrong})
		_, bounds := zsched.BoundsOf("forever", zsched.Driver{Jitter: wrong})
		if err == nil || err == errBusy || attempts != 0 || plan == nil || bounds == nil || guard == nil {
			t.Error(wrong, err, attempts, plan, bounds, guard)
		}
	}
	if zsched.NewBudget(0, 0).Take() {
		t.Error("a retry without a token")
	}
}

func TestAnAttemptThatOutlastsItsLimitAndTheContextThatEndsIt(t *testing.T) {
	ctx, cancel := context.WithCancel(context.Background())
	attempts, loop := 0, retry("recurs(5)")
	loop.AttemptMost = 20 * time.Millisecond
	err := loop.Do(ctx, func(limited context.Context) error {
		<-limited.Done()
		if attempts++; attempts == 2 {
			cancel()
		}
		return limited.Err()
	})
	if attempts != 2 || !errors.Is(err, context.DeadlineExceeded) || !errors.Is(err, context.Canceled) {
		t.Error(attempts, err)
	}
}

func TestGoroutinesShareASchedule(t *testing.T) {
	loop, attempts, group := retry("recurs(20)"), int64(0), sync.WaitGroup{}
	for i := 0; i < 8; i++ {
		group.Add(1)
		go func() {
			defer group.Done()
			_ = loop.Do(context.Background(), func(context.Context) error {
				atomic.AddInt64(&attempts, 1)
				return errBusy
			})
		}()
	}
	for moment := uint64(1); moment < 20; moment++ {
		next(t, loop.Schedule, moment)
	}
	if group.Wait(); attempts != 8*21 {
		t.Error(attempts)
	}
}

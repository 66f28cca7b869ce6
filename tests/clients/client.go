// Command client is the client of the library in Go. client.c documents the requests and the lines.
package main

import (
	"bufio"
	"context"
	"encoding/hex"
	"errors"
	"fmt"
	"math"
	"os"
	"strconv"
	"strings"
	"time"

	zsched "github.com/zsched/zsched/bindings/go"
)

var (
	budgets = []*zsched.Budget{nil, zsched.NewBudget(10, 0.5)}
	flags   = map[bool]int{true: 1}
)

type failing uint64

func (code failing) Error() string { return strconv.FormatUint(uint64(code), 10) }

func codeOf(err error) uint64 { return uint64(err.(failing)) }

// millis returns milliseconds as a Duration: the longest one for any number that none has.
func millis(number uint64) time.Duration {
	if number > math.MaxInt64/1000000 {
		return math.MaxInt64
	}
	return time.Duration(number) * time.Millisecond
}

// stored returns the schedule as it is after its state was stored.
func stored(schedule *zsched.Schedule) *zsched.Schedule {
	schedule, err := zsched.Resume(schedule.String(), schedule.State())
	if err != nil {
		panic(err)
	}
	return schedule
}

func steps(command, text string, numbers []uint64) (said []any, err error) {
	schedule, err := zsched.Compile(text)
	for i := 0; i < len(numbers) && err == nil; i += 2 {
		if command == "stored" {
			schedule = stored(schedule)
		}
		next, ok, failed := schedule.AfterMillis(numbers[i], numbers[i+1])
		if failed != nil {
			return said, failed
		}
		output, _ := schedule.Output()
		said = append(said, fmt.Sprintf("%d,%d,%s", flags[!ok], next, output))
	}
	return
}

func plan(text string, percent, least, longest uint64, numbers []uint64) (said []any, err error) {
	schedule, err := zsched.Compile(text)
	turn := zsched.Turn{Least: millis(least), Longest: millis(longest), Jitter: float64(percent) / 100}
	if longest == 0 {
		turn.Longest = -1
	}
	for ; len(numbers) > 0 && err == nil; numbers = numbers[4:] {
		turn.Began, turn.Ended, turn.Input = time.Duration(numbers[0]), time.Duration(numbers[1]), numbers[2]
		turn.Draw = func() uint32 { return uint32(numbers[3]) }
		begin, ok, failed := schedule.Plan(turn)
		if failed != nil {
			return said, failed
		}
		said = append(said, fmt.Sprintf("%d,%d", flags[!ok], begin))
	}
	return
}

// restarted has a clock of the wall, in nanoseconds.
func restarted(text string, code, back, most uint64) ([]any, error) {
	start, attempts, last := time.Duration(1e18), uint64(0), time.Duration(0)
	clock, ok := start, true
	schedule, err := zsched.Compile(text)
	for ok && err == nil && attempts < most {
		if attempts++; attempts == 3 {
			clock -= millis(back)
		}
		schedule = stored(schedule)
		begin := time.Duration(0)
		begin, ok, err = schedule.Plan(zsched.Turn{Began: clock - start, Ended: clock - start, Input: code})
		if ok {
			last, clock = begin, start+begin
		}
	}
	if err != nil {
		return nil, err
	}
	return []any{attempts, int64(last)}, nil
}

// millisOf returns a bound in milliseconds: 2^64 - 1 if no Duration has it.
func millisOf(bound time.Duration) uint64 {
	if bound == math.MaxInt64 {
		return math.MaxUint64
	}
	return uint64(bound.Milliseconds())
}

func bounds(text string, steps uint64, numbers ...uint64) ([]any, error) {
	driver := zsched.Driver{Steps: steps}
	if len(numbers) > 0 {
		driver.Least, driver.Most = millis(numbers[0]), millis(numbers[1])
	}
	if len(numbers) > 2 {
		driver.Jitter, driver.Asked, driver.Late = float64(numbers[2])/100, millis(numbers[3]), millis(numbers[4])
	}
	found, err := zsched.BoundsOf(text, driver)
	said := []any{found.Seen, found.Least, flags[found.HasMost], found.Most, millisOf(found.Longest),
		flags[found.HasTotal], millisOf(found.Total), flags[found.HasLongestRun], millisOf(found.LongestRun)}
	if err != nil {
		said = nil
	}
	return said, err
}

func moved(text string) error {
	first, second, _ := strings.Cut(text, "\n")
	_, err := zsched.Resume(second, zsched.MustCompile(first).State())
	return err
}

func retry(text string, code, times uint64, options ...uint64) ([]any, error) {
	schedule, err := zsched.Compile(text)
	if err != nil {
		return nil, err
	}
	start, attempts, said, retry := time.Now(), uint64(0), []any{""}, zsched.Retry{Schedule: schedule, InputOf: codeOf}
	if len(options) > 4 {
		retry.RetryAfterMost = millis(options[4])
	}
	if len(options) > 0 {
		retry.Budget, retry.Jitter = budgets[options[3]], float64(options[0])/100
		retry.RetryAfter = func(error) time.Duration { return millis(options[1]) }
		retry.OnEvent = func(event zsched.Event) {
			if event.Why == "" {
				said = append(said, fmt.Sprintf("%d:%d", event.Attempt, event.Wait.Milliseconds()))
			}
		}
	}
	ended, err := zsched.RetryValue(context.Background(), &retry, func(context.Context) (string, error) {
		said = append(said, time.Since(start).Microseconds())
		attempts++
		if attempts > times {
			return "done", nil
		}
		if len(options) > 0 && code == options[2] {
			return "", zsched.Permanent(failing(code))
		}
		return "", failing(code)
	})
	if err != nil {
		ended = err.Error()
	}
	said[0] = ended
	return said, nil
}

// order notes the calls of a retry, how it ended and the tokens that remain.
func order(text, what string) (said []any) {
	ctx, cancel := context.WithCancel(context.Background())
	budget, note := zsched.NewBudget(10, 0.5), func(word string) { said = append(said, word) }
	if what == "broke" {
		budget = zsched.NewBudget(1, 0)
	}
	retry := zsched.Retry{Schedule: zsched.MustCompile(text), Budget: budget, InputOf: func(err error) uint64 {
		note("input")
		return codeOf(err)
	}, RetryAfter: func(error) time.Duration {
		note("least")
		return 0
	}, OnEvent: func(event zsched.Event) {
		if event.Why == "" {
			event.Why = "sleep"
		}
		note(strings.ReplaceAll(string(event.Why), " ", "_"))
	}}
	err := retry.Do(ctx, func(context.Context) error {
		note("attempt")
		switch what {
		case "cancelled":
			cancel()
		case "unretried":
			return zsched.Permanent(failing(7))
		}
		return failing(7)
	})
	ended := err.Error()
	if errors.Is(err, context.Canceled) {
		ended = "cancelled"
	}
	return append(said, ended, fmt.Sprintf("%.1f", budget.Tokens()))
}

// edge makes attempts that fail at once, at an edge of an option.
func edge(text, what string, numbers ...uint64) []any {
	ctx, cancel := context.WithCancel(context.Background())
	attempts, wait, retry := 0, "", zsched.Retry{Schedule: zsched.MustCompile(text), InputOf: codeOf}
	number := time.Duration(0)
	if len(numbers) > 0 {
		number = time.Duration(int64(numbers[0])) * time.Millisecond
	}
	switch what {
	case "limit":
		retry.AttemptMost = number
	case "longest":
		retry.RetryAfterMost = number
		retry.RetryAfter = func(error) time.Duration { return 1500 * time.Millisecond }
	case "cancelled":
		cancel()
	}
	retry.OnEvent = func(event zsched.Event) {
		if wait == "" && event.Why == "" {
			wait = "short"
			if event.Wait >= time.Second {
				wait = "long"
			}
		}
	}
	err := retry.Do(ctx, func(context.Context) error {
		attempts++
		return failing(503)
	})
	switch {
	case errors.Is(err, context.Canceled):
		return []any{attempts, "cancelled"}
	case attempts == 0:
		return []any{"refused"}
	case wait == "":
		return []any{attempts, err}
	}
	return []any{attempts, err, wait}
}

// driven is a clock that a call alone moves, and the last draw.
type driven struct {
	now   time.Time
	drawn uint32
	late  uint64
	falls bool
}

func (clock *driven) draw(most uint64) uint64 {
	clock.drawn = clock.drawn*1103515245 + 12345
	return uint64(clock.drawn>>16) * most / 65535
}

func (clock *driven) move(by time.Duration) {
	clock.now = clock.now.Add(by)
	if clock.falls && clock.draw(3) == 0 {
		clock.now = clock.now.Add(-time.Duration(clock.draw(10_000_000)) * time.Microsecond)
	}
}

func (clock *driven) Now() time.Time { return clock.now }

func (clock *driven) Sleep(_ context.Context, wait time.Duration) {
	clock.move(wait + time.Duration(clock.draw(1000*clock.late))*time.Microsecond)
}

// guarded makes a call over such a clock, and returns what it did beside the bounds of its guard.
func guarded(text string, to []uint64) []any {
	clock := &driven{time.Unix(0, 0), uint32(to[0]), to[4], to[7] == 1}
	retry := zsched.Retry{Schedule: zsched.MustCompile(text), Clock: clock, InputOf: codeOf, Jitter: float64(to[1]) / 100,
		Deadline: millis(to[3]), RetryAfterMost: millis(to[2])}
	if to[2] > 0 {
		retry.RetryAfter = func(error) time.Duration { return millis(clock.draw(2 * to[2])) }
	}
	start, ended, attempts, longest, total := clock.now, clock.now, 0, time.Duration(0), time.Duration(0)
	_ = retry.Do(context.Background(), func(context.Context) error {
		wait := clock.now.Sub(ended)
		if total += wait; wait > longest {
			longest = wait
		}
		clock.move(time.Duration(1000*to[5]+clock.draw(1000*(to[6]-to[5]))) * time.Microsecond)
		if attempts++; attempts == 200 {
			ended = clock.now
			return nil
		}
		ended = clock.now
		return failing(502 + clock.draw(2))
	})
	bounds, err := retry.Bounds(math.MaxInt64)
	if to[7] == 0 {
		bounds, err = retry.Bounds(millis(to[4]), zsched.TrustingAttempts(millis(to[5]), millis(to[6])))
	}
	if err != nil {
		panic(err)
	}
	said := []any{attempts, int64(longest), int64(total), int64(ended.Sub(start)), bounds.Least, -1, bounds.Longest.Milliseconds(), -1, -1}
	if bounds.HasMost {
		said[5] = bounds.Most
	}
	if bounds.HasTotal {
		said[7] = bounds.Total.Milliseconds()
	}
	if bounds.HasLongestRun {
		said[8] = bounds.LongestRun.Milliseconds()
	}
	return said
}

// said returns the message of a wrong text.
func said(text string) string {
	_, err := zsched.Compile(text)
	return fmt.Sprintf(".%x", err.Error())
}

// limited makes attempts that end some time after their context, or in 5 seconds.
func limited(text string, code, times, most uint64) []any {
	start, said := time.Now(), []any{"done"}
	retry := zsched.Retry{Schedule: zsched.MustCompile(text), InputOf: codeOf, AttemptMost: millis(most)}
	err := retry.Do(context.Background(), func(ctx context.Context) error {
		said = append(said, time.Since(start).Microseconds())
		defer func() { said = append(said, time.Since(start).Microseconds()) }()
		if uint64(len(said)) > 2*times {
			return nil
		}
		select {
		case <-ctx.Done():
			time.Sleep(30 * time.Millisecond)
		case <-time.After(5 * time.Second):
		}
		return failing(code)
	})
	if err != nil {
		said[0] = err.Error()
	}
	return said
}

func good(text string, count uint64) int64 {
	retry := zsched.Retry{Schedule: zsched.MustCompile(text), InputOf: codeOf}
	ctx, start := context.Background(), time.Now()
	for i := uint64(0); i < count; i++ {
		_, _ = zsched.RetryValue(ctx, &retry, func(context.Context) (uint64, error) { return i, nil })
	}
	return time.Since(start).Nanoseconds() / int64(count)
}

func many(text string, count uint64) {
	schedule, next := zsched.MustCompile(text), uint64(0)
	for i := uint64(1); i <= count; i++ {
		next, _, _ = schedule.AfterMillis(next, 503)
		if i%(count/10) == 0 {
			fmt.Println()
		}
	}
}

// firstWords returns a message's first line, without a hint.
func firstWords(message string) string {
	message, _, _ = strings.Cut(message, "\n")
	message, _, _ = strings.Cut(message, ": ")
	return message
}

func main() {
	lines := bufio.NewScanner(os.Stdin)
	lines.Buffer(nil, 1<<24)
	for lines.Scan() {
		words, line, err := strings.Split(lines.Text(), " "), []any{}, error(nil)
		digits, _ := hex.DecodeString(words[1][1:])
		text, numbers := string(digits), make([]uint64, len(words)-2)
		for i, it := range words[2:] {
			if numbers[i], _ = strconv.ParseUint(it, 10, 64); strings.HasPrefix(it, "-") {
				number, _ := strconv.ParseInt(it, 10, 64)
				numbers[i] = uint64(number)
			}
		}
		switch words[0] {
		case "version":
			line = append(line, zsched.Version())
		case "moved":
			err = moved(text)
		case "plan":
			line, err = plan(text, numbers[0], numbers[1], numbers[2], numbers[3:])
		case "restarted":
			line, err = restarted(text, numbers[0], numbers[1], numbers[2])
		case "retry":
			line, err = retry(text, numbers[0], numbers[1], numbers[2:]...)
		case "order":
			line = order(text, words[2])
		case "edge":
			line = edge(text, words[2], numbers[1:]...)
		case "guarded":
			line = guarded(text, numbers)
		case "said":
			line = append(line, said(text))
		case "limited":
			line = limited(text, numbers[0], numbers[1], numbers[2])
		case "good":
			line = append(line, good(text, numbers[0]))
		case "bounds":
			line, err = bounds(text, numbers[0], numbers[1:]...)
		case "many":
			many(text, numbers[0])
		default:
			line, err = steps(words[0], text, numbers)
		}
		var fault *zsched.Fault
		if errors.As(err, &fault) {
			line = append(line, fmt.Sprintf("%d,%d,%s", fault.Number, fault.At, firstWords(fault.Error())))
		}
		fmt.Println(line...)
	}
}

//go:build cgo

// Package zsched retries by the proved schedules of zsched.
//
// A Retry has a Schedule and options. It sleeps between attempts, and its Bounds say how often and how
// long it retries at most. A Journal stores a call over restarts. A Schedule has calls for other loops.
// The results are proved, the sleeping is not.
package zsched

/*
#cgo CFLAGS: -I${SRCDIR}
#cgo linux,amd64,!zsched_source LDFLAGS: -L${SRCDIR} -lzsched
#cgo linux,arm64,!zsched_source LDFLAGS: -L${SRCDIR} -lzsched_arm64
#include <pthread.h>
#include <zsched.h>

struct call {
	const char *text;
	size_t length;
	const zs_driver *driver;
	uint64_t steps;
	zs_run_bounds *bounds;
	uint64_t *at;
	uint32_t number;
};

static void *run(void *data) {
	struct call *it = data;
	it->number = zs_bounds(it->text, it->length, it->driver, it->steps, it->bounds, it->at);
	return 0;
}

// zs_bounds needs 192 KiB of stack. Where threads have less, as musl's of 128, it has a separate one.
static uint32_t bounds_of(const char *text, size_t length, const zs_driver *driver, uint64_t steps,
		zs_run_bounds *bounds, uint64_t *at) {
	struct call it = {text, length, driver, steps, bounds, at, ZS_NO_MEMORY};
	pthread_attr_t attributes;
	pthread_t thread;
	size_t size = 0, least = 256 * 1024;
	if (pthread_attr_init(&attributes) != 0)
		return it.number;
	if (pthread_attr_getstacksize(&attributes, &size) == 0 && size >= least)
		run(&it);
	else if (pthread_attr_setstacksize(&attributes, least) == 0 && pthread_create(&thread, &attributes, run, &it) == 0)
		pthread_join(thread, 0);
	pthread_attr_destroy(&attributes);
	return it.number;
}
*/
import "C"

import (
	"fmt"
	"hash/maphash"
	"math"
	"time"
	"unsafe"
)

// Numbers of a Fault.
const (
	NoStep       = 2  // there is no output before the first step
	Falls        = 3  // the moment is below that of the last step
	KeepsList    = 6  // the output has a list, by collectAll, so the state would grow with the steps
	NoProgram    = 8  // the Schedule is a zero value
	OtherState   = 9  // the words are the state of another schedule
	NoDriver     = 10 // no driver does what the Driver says
	OtherVersion = 18 // the words are a state of another version of the library
)

// Fault is the error of a call: its number and place, as zsched.h defines them.
type Fault struct {
	Number uint32 // the number in zsched.h
	At     uint64 // the byte of the text, or 0
	Text   string // the text that is no schedule, or empty
}

// Error returns the library's words. For a wrong text a hint, the text and a mark below its byte follow.
func (fault *Fault) Error() string {
	out := make([]byte, C.ZS_TEXT_MOST)
	size := C.zs_strerror(C.uint32_t(fault.Number), C.uint64_t(fault.At), bytesOf(out), C.size_t(len(out)))
	return linesOf(string(out[:size]), fault)
}

// Version returns that of the library as one number: 1000000 * major + 1000 * minor + patch.
func Version() uint32 { return uint32(C.zs_version()) }

// forever is the longest Duration, which is no limit.
const forever = time.Duration(math.MaxInt64)

// Driver is what a loop of another kind does with a schedule, for BoundsOf. The zero value makes
// attempts of 1 millisecond or more, and exactly the schedule's waits. Times count in whole
// milliseconds: Least is rounded down, and the others up.
type Driver struct {
	Steps  uint64        // the number of attempts that are examined at most; 0 is 1000
	Least  time.Duration // no attempt takes less; below 1 millisecond it counts as that
	Most   time.Duration // no attempt takes more; 0 is no limit
	Jitter float64       // the share of a wait that jitter may take off, from 0 to 1, in whole percent
	Asked  time.Duration // the longest wait that a service may ask for, as by Retry-After
	Late   time.Duration // how late an attempt may begin; math.MaxInt64 is any lateness
}

// Bounds is what a schedule does for every input, if no moment is above 999999999999999 milliseconds.
// A time that no Duration can have is no bound.
type Bounds struct {
	Seen          uint64        // the number of attempts that were examined
	Least         uint64        // the first attempt that can be the last one
	HasMost       bool          // false if there may be any number of attempts
	Most          uint64        // the number of attempts at most, or 0 without HasMost
	Longest       time.Duration // the longest wait after the attempts that were examined, or math.MaxInt64
	HasTotal      bool          // false if there is no bound for all waits together
	Total         time.Duration // all waits together at most, or 0 without HasTotal
	HasLongestRun bool          // false if there is no bound for the time of a call
	LongestRun    time.Duration // when each attempt ends at most, from the first one's begin, or 0
}

// BoundsOf returns the bounds of a text alone, with a loop of another kind; Retry.Bounds are those of a
// Retry. The error is a *Fault, or that of a jitter that isn't from 0 to 1.
func BoundsOf(text string, driver Driver) (Bounds, error) {
	percent, err := percentOf(driver.Jitter)
	if err != nil {
		return Bounds{}, err
	}
	data, at, found := []byte(text), C.uint64_t(0), C.zs_run_bounds{size: C.sizeof_zs_run_bounds}
	it := C.zs_driver{size: C.sizeof_zs_driver, least_ms: 1, most_ms: count(driver.Most, time.Millisecond),
		least_percent: C.uint64_t(100 - percent), most_percent: 100, asked_ms: count(driver.Asked, time.Millisecond),
		late_ms: count(driver.Late, time.Millisecond)}
	if driver.Steps == 0 {
		driver.Steps = 1000
	}
	if driver.Least > time.Millisecond {
		it.least_ms = C.uint64_t(driver.Least / time.Millisecond)
	}
	if driver.Most > 0 {
		it.has_most = 1
	}
	if driver.Late == forever {
		it.late_ms = math.MaxUint64
	}
	number := C.bounds_of(bytesOf(data), C.size_t(len(data)), &it, C.uint64_t(driver.Steps), &found, &at)
	bounds := Bounds{Seen: uint64(found.seen), Least: uint64(found.least), HasMost: found.has_most == 1,
		Most: uint64(found.most), Longest: forever}
	if longest, fits := durationOf(found.longest_ms); fits {
		bounds.Longest = longest
	}
	if total, fits := durationOf(found.total_ms); found.has_total == 1 && fits {
		bounds.HasTotal, bounds.Total = true, total
	}
	if run, fits := durationOf(found.longest_run_ms); found.has_longest_run == 1 && fits {
		bounds.HasLongestRun, bounds.LongestRun = true, run
	}
	return bounds, faultOf(uint32(number), at, text)
}

// EndsWithin returns whether each call ends within a time, attempts and waits together.
func (bounds Bounds) EndsWithin(run time.Duration) bool {
	return bounds.HasLongestRun && bounds.LongestRun <= run
}

// Within returns whether there are at most `most` attempts, and `total` of waits together.
func (bounds Bounds) Within(most uint64, total time.Duration) bool {
	return bounds.HasMost && bounds.Most <= most && bounds.HasTotal && bounds.Total <= total
}

// Schedule is a compiled schedule and the state after its steps, whose size depends on the text
// alone. Compile makes one; the steps of the zero value are a *Fault with the number NoProgram.
// Goroutines may share a Schedule for Begin, String and retries, which only read its program. For the
// rest one at a time may use it. A copied struct has the same state; Clone makes a separate one.
type Schedule struct {
	text           string
	program, state []uint64
	// What calls of C read and write, so that a step allocates nothing.
	turn         C.zs_turn
	next, visits C.uint64_t
}

// Compile returns the schedule of a text, before its first step, or a *Fault. For a schedule whose
// output has a list that is one with the number KeepsList.
func Compile(text string) (*Schedule, error) {
	data, size, stateSize, at := []byte(text), C.size_t(0), C.size_t(0), C.uint64_t(0)
	number := C.zs_program_size(bytesOf(data), C.size_t(len(data)), &size, &stateSize, &at)
	made := &Schedule{text: text, program: make([]uint64, size), state: make([]uint64, stateSize)}
	if number == C.ZS_OK {
		number = C.zs_compile(bytesOf(data), C.size_t(len(data)), wordsOf(made.program), size, &at)
	}
	if err := faultOf(number, at, text); err != nil {
		return nil, err
	}
	return made.Begin(), nil
}

// MustCompile returns the schedule of a text that is part of the program. It panics if that is none.
func MustCompile(text string) *Schedule {
	schedule, err := Compile(text)
	if err != nil {
		panic("zsched: " + err.Error())
	}
	return schedule
}

// Resume returns the schedule of a text with a state that State returned, or a *Fault, which has the
// number OtherState for the state of another schedule, and OtherVersion for that of another version.
// Words that were changed after the first two aren't detected.
func Resume(text string, state []uint64) (*Schedule, error) {
	schedule, err := Compile(text)
	if err != nil {
		return nil, err
	}
	if len(state) == 0 || state[0] != schedule.state[0] {
		return nil, &Fault{Number: OtherVersion}
	}
	if len(state) != len(schedule.state) || state[1] != schedule.state[1] {
		return nil, &Fault{Number: OtherState}
	}
	copy(schedule.state, state)
	return schedule, nil
}

// Begin returns the schedule before any step. Both share the program.
func (schedule *Schedule) Begin() *Schedule {
	it := &Schedule{text: schedule.text, program: schedule.program, state: make([]uint64, len(schedule.state))}
	C.zs_program_begin(wordsOf(it.program), C.size_t(len(it.program)), wordsOf(it.state), C.size_t(len(it.state)))
	return it
}

// Clone returns a copy, which shares the program and is stepped alone.
func (schedule *Schedule) Clone() *Schedule {
	return &Schedule{text: schedule.text, program: schedule.program, state: schedule.State()}
}

// String returns the text.
func (schedule *Schedule) String() string { return schedule.text }

// State returns a copy of the words of the state. Their number depends on the text alone. The first is
// a version, and the second identifies the schedule.
func (schedule *Schedule) State() []uint64 { return append([]uint64(nil), schedule.state...) }

// AfterMillis makes one more step, at a moment in milliseconds from any start and with any input. It
// returns the millisecond at which the next attempt may begin; ok is false if the schedule is done. After
// a *Fault, such as one with the number Falls, the schedule is unchanged.
func (schedule *Schedule) AfterMillis(moment, input uint64) (next uint64, ok bool, err error) {
	number := C.zs_program_step(wordsOf(schedule.program), C.size_t(len(schedule.program)), wordsOf(schedule.state),
		C.size_t(len(schedule.state)), C.uint64_t(moment), C.uint64_t(input), &schedule.next, &schedule.visits)
	return uint64(schedule.next), number == C.ZS_OK, schedule.errorOf(number)
}

// Output returns the text of the last step's output, or a *Fault with the number NoStep.
func (schedule *Schedule) Output() (string, error) {
	out, size := make([]byte, 64), C.size_t(0)
	for {
		number := C.zs_output(wordsOf(schedule.program), C.size_t(len(schedule.program)), wordsOf(schedule.state),
			C.size_t(len(schedule.state)), bytesOf(out), C.size_t(len(out)), &size)
		if int(size) < len(out) {
			return string(out[:size]), schedule.errorOf(number)
		}
		out = make([]byte, size+1)
	}
}

// Turn is one failed attempt of a loop, by the loop's own clock. Began and Ended count from the begin
// of the first attempt; one below 0 counts as 0. The clock may fall.
type Turn struct {
	Began, Ended time.Duration
	Input        uint64        // the error's code, or any number
	Least        time.Duration // the least wait that the service asked for, in whole milliseconds, rounded up
	Longest      time.Duration // a Least counts up to this; 0 is an hour, and below 0 none counts
	Jitter       float64       // the share of the wait that jitter may take off, from 0 to 1, in whole percent
	Draw         func() uint32 // how much of that it takes off: 32 random bits; nil draws them
}

// Plan steps the schedule at the end of an attempt. It returns when the next one may begin, from the
// begin of the first, up to the longest Duration; ok is false if the loop gives up. After an error the
// schedule is unchanged. The error is a *Fault, or that of a jitter that isn't from 0 to 1.
//
// The Bounds are those of a Driver with the same Jitter, and with the longest Least as Asked. A loop
// makes at most Most attempts, whatever its clock does. A state may be stored between two turns; later
// ones count from the same begin.
func (schedule *Schedule) Plan(turn Turn) (begin time.Duration, ok bool, err error) {
	percent, err := percentOf(turn.Jitter)
	if err != nil {
		return 0, false, err
	}
	if turn.Longest == 0 {
		turn.Longest = time.Hour
	}
	schedule.turn = C.zs_turn{size: C.sizeof_zs_turn, began_ns: count(turn.Began, 1), ended_ns: count(turn.Ended, 1),
		input: C.uint64_t(turn.Input), least_ms: count(turn.Least, time.Millisecond),
		longest_ms: count(turn.Longest, time.Millisecond), percent: percent}
	if turn.Draw != nil {
		schedule.turn.draw = C.uint32_t(turn.Draw())
	} else if percent > 0 {
		// Before Go 1.20 math/rand gives all processes the same.
		schedule.turn.draw = C.uint32_t(new(maphash.Hash).Sum64())
	}
	number := C.zs_plan(wordsOf(schedule.program), C.size_t(len(schedule.program)), wordsOf(schedule.state),
		C.size_t(len(schedule.state)), &schedule.turn, &schedule.next)
	if schedule.next > math.MaxInt64 {
		schedule.next = math.MaxInt64
	}
	return time.Duration(schedule.next), number == C.ZS_OK, schedule.errorOf(number)
}

// count returns how many units a time has, rounded up; one below 0 has none.
func count(it, unit time.Duration) C.uint64_t {
	if it <= 0 {
		return 0
	}
	return C.uint64_t((it-1)/unit + 1)
}

// durationOf returns milliseconds as a Duration, if there is one.
func durationOf(millis C.uint64_t) (time.Duration, bool) {
	return time.Duration(millis) * time.Millisecond, millis <= math.MaxInt64/1000000
}

// percentOf returns a share from 0 to 1 in whole percent.
func percentOf(share float64) (C.uint32_t, error) {
	if !(share >= 0 && share <= 1) {
		return 0, fmt.Errorf("zsched: a jitter of %v is not from 0 to 1", share)
	}
	return C.uint32_t(math.Round(100 * share)), nil
}

// bytesOf returns the address of bytes, or nil if there are none.
func bytesOf(data []byte) *C.char {
	if len(data) == 0 {
		return nil
	}
	return (*C.char)(unsafe.Pointer(&data[0]))
}

// wordsOf returns the address of words, or nil if there are none.
func wordsOf(words []uint64) *C.uint64_t {
	if len(words) == 0 {
		return nil
	}
	return (*C.uint64_t)(unsafe.Pointer(&words[0]))
}

// errorOf returns the error that a number represents, or nil if it is none. The zero value has no state
// either, of which calls say so first.
func (schedule *Schedule) errorOf(number C.enum_zs_status) error {
	if number > C.ZS_DONE && len(schedule.program) == 0 {
		number = C.ZS_NO_PROGRAM
	}
	return faultOf(number, 0, "")
}

// faultOf returns the error that a number and a place in a text represent, or nil if it is none.
func faultOf(number C.enum_zs_status, at C.uint64_t, text string) error {
	if number <= C.ZS_DONE {
		return nil
	}
	return &Fault{Number: uint32(number), At: uint64(at), Text: text}
}

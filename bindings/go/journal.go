//go:build cgo && linux && (amd64 || arm64)

package zsched

import (
	"context"
	"errors"
	"fmt"
	"os"
	"path/filepath"
	"regexp"
	"strconv"
	"strings"
	"syscall"
	"time"
)

// Journal stores the state of one job in a file, so that a call goes on after a restart. It is written
// before each attempt, as if that had failed at once, so a killed attempt counts; and after each that
// failed. After a success the file is removed. One process at a time has it.
type Journal struct {
	file   string
	killed []uint64
}

// NewJournal returns the journal in a file. `killed` is the code that a killed attempt counts as: 0
// without it. A schedule that reads codes needs one.
func NewJournal(file string, killed ...uint64) *Journal { return &Journal{file, killed} }

// JournalError is the error of a journal that can't be used. The file is unchanged.
type JournalError struct {
	File string
	Why  string // empty, no journal, cut, another version, another policy, in use
}

// Error returns the text.
func (err *JournalError) Error() string { return "zsched: journal " + err.File + ": " + err.Why }

// GaveUpError is the error of a job that gave up in an earlier call.
type GaveUpError struct {
	File     string
	Attempts int
	Last     string // the text of the last error
}

// Error returns the text.
func (err *GaveUpError) Error() string {
	return fmt.Sprintf("zsched: journal %s: gave up after %d attempts: %s", err.File, err.Attempts, err.Last)
}

// A journal's file, of which each line has a name and a value, and its numbers.
var (
	lines = regexp.MustCompile(`^zsched journal 1
schedule ([ -~]+)
state ((?:0|[1-9][0-9]*)(?: (?:0|[1-9][0-9]*))*)
attempts (0|[1-9][0-9]*)
ended (0|[1-9][0-9]*)
begin (0|[1-9][0-9]*|none)
at (0|[1-9][0-9]*)
error ([ -~]+)
end
$`)
	version = regexp.MustCompile(`^zsched journal (0|[1-9][0-9]*)(\n|$)`)
)

const (
	firstLine   = "zsched journal 1\n"
	lettersMost = 200
)

// entry is what a journal's file says.
type entry struct {
	state    []uint64
	attempts int
	ended    time.Duration
	begin    time.Duration
	isOver   bool // there is no next attempt
	at       int64
	last     string
}

// journalFile is a journal of which this process has the lock.
type journalFile struct {
	name string
	lock *os.File
}

// resume locks the journal, and goes on as its file says.
func (run *run) resume(ctx context.Context) (err error) {
	name, policy := run.Journal.file, run.policy()
	reads := strings.Contains(policy.text, "whileInput") || strings.Contains(policy.text, "identity")
	if reads && len(run.Journal.killed) == 0 {
		return errors.New("zsched: the policy reads codes: say which one a killed attempt has, by NewJournal(file, code)")
	}
	lock, err := lockOf(name)
	if err != nil {
		return err
	}
	run.file = &journalFile{name, lock}
	defer func() {
		if err != nil {
			run.file.close()
		}
	}()
	found, schedule, err := readJournal(name, policy)
	if err != nil {
		return err
	}
	now := run.now()
	if run.start = now; found == nil {
		return nil
	}
	elapsed := found.ended
	if passed := now.UnixNano() - found.at; passed > 0 {
		elapsed = sum(elapsed, time.Duration(passed))
	}
	if found.isOver || run.Deadline > 0 && (found.begin > run.Deadline || elapsed > run.Deadline) {
		return &GaveUpError{name, found.attempts, found.last}
	}
	run.attempts, run.schedule, run.start = found.attempts, schedule, now.Add(-elapsed)
	last, until := errors.New(found.last), run.start.Add(found.begin)
	if end, ok := ctx.Deadline(); ok && !until.Before(end) {
		return &Ended{Last: last, Cause: context.DeadlineExceeded}
	}
	if err = run.sleep(ctx, until); err == nil {
		err = ctx.Err()
	}
	if err != nil {
		return &Ended{Last: last, Cause: err}
	}
	run.turn.Began = run.now().Sub(run.start)
	return nil
}

// plannedAsKilled stores the state as it is if the attempt that follows is killed. `last` is the error
// of the one before it, if there was one.
func (run *run) plannedAsKilled(last error) error {
	if run.schedule == nil {
		run.schedule = run.policy().Begin()
	}
	turn, killed := Turn{Began: run.turn.Began, Ended: run.turn.Began, Jitter: run.jitter()}, run.schedule.Clone()
	if len(run.Journal.killed) > 0 {
		turn.Input = run.Journal.killed[0]
	}
	begin, ok, err := killed.Plan(turn)
	if err == nil {
		text := fmt.Sprintf("killed in attempt %d", run.attempts)
		it := entry{killed.state, run.attempts, turn.Ended, begin, !ok, run.now().UnixNano(), text}
		err = run.file.write(it, killed.text)
	}
	if err != nil && last != nil {
		return &Ended{Last: last, Cause: err}
	}
	return err
}

// stored stores the state after an attempt that failed, and when the next one begins, if there is one. It
// returns an error that is given, or that of the file.
func (run *run) stored(begin *time.Duration, event Event, ended error) error {
	if run.file == nil {
		return ended
	}
	it := entry{run.schedule.state, run.attempts, event.Elapsed, 0, begin == nil, run.now().UnixNano(), event.Err.Error()}
	if begin != nil {
		it.begin = *begin
	}
	if err := run.file.write(it, run.schedule.text); err != nil {
		return &Ended{Last: event.Err, Cause: err}
	}
	return ended
}

// lockOf returns the lock of a journal, or a *JournalError if another has it.
func lockOf(name string) (*os.File, error) {
	for {
		lock, err := os.OpenFile(name+".lock", os.O_RDWR|os.O_CREATE, 0o666)
		if err != nil {
			return nil, fmt.Errorf("zsched: journal %s: %w", name, err)
		}
		err = syscall.Flock(int(lock.Fd()), syscall.LOCK_EX|syscall.LOCK_NB)
		if err == nil {
			// Whoever had it before may have removed it.
			held, failed := lock.Stat()
			if there, gone := os.Stat(name + ".lock"); failed == nil && gone == nil && os.SameFile(held, there) {
				return lock, nil
			}
		}
		if lock.Close(); errors.Is(err, syscall.EWOULDBLOCK) {
			return nil, &JournalError{name, "in use"}
		}
		if err != nil && !errors.Is(err, syscall.EINTR) {
			return nil, fmt.Errorf("zsched: journal %s: %w", name, err)
		}
	}
}

// close frees the lock.
func (file *journalFile) close() {
	if _, err := os.Lstat(file.name); errors.Is(err, os.ErrNotExist) {
		os.Remove(file.name + ".lock")
	}
	file.lock.Close()
}

// readJournal returns what a journal's file says and the schedule in its state, or nil if there is no file.
func readJournal(name string, policy *Schedule) (*entry, *Schedule, error) {
	data, err := os.ReadFile(name)
	if errors.Is(err, os.ErrNotExist) {
		return nil, nil, nil
	}
	if err != nil {
		return nil, nil, fmt.Errorf("zsched: journal %s: %w", name, err)
	}
	text, is := string(data), func(why string) (*entry, *Schedule, error) { return nil, nil, &JournalError{name, why} }
	other := version.FindStringSubmatch(text)
	switch {
	case text == "":
		return is("empty")
	case other != nil && other[1] != "1":
		return is("another version")
	case strings.HasPrefix(firstLine, text) || strings.HasPrefix(text, firstLine) && !strings.HasSuffix(text, "\nend\n"):
		return is("cut")
	}
	it, isWhole := entryOf(text)
	if it == nil {
		return is("no journal")
	}
	if isWhole != policy.text {
		return is("another policy")
	}
	schedule, err := Resume(policy.text, it.state)
	fault := (*Fault)(nil)
	if err == nil {
		_, err = schedule.Output()
	}
	if errors.As(err, &fault) && fault.Number != NoStep {
		return is("another version")
	}
	return it, schedule, nil
}

// entryOf reads the lines of a journal, and returns its schedule's text too. It is nil if a line has
// another form.
func entryOf(text string) (*entry, string) {
	found := lines.FindStringSubmatch(text)
	if found == nil {
		return nil, ""
	}
	it, isNumber := &entry{last: found[7], isOver: found[5] == "none"}, true
	whole := func(digits string) uint64 {
		number, err := strconv.ParseUint(digits, 10, 64)
		isNumber = isNumber && err == nil
		return number
	}
	for _, word := range strings.Fields(found[2]) {
		it.state = append(it.state, whole(word))
	}
	it.attempts, it.ended, it.at = int(whole(found[3])), nanoseconds(whole(found[4])), int64(nanoseconds(whole(found[6])))
	if !it.isOver {
		it.begin = nanoseconds(whole(found[5]))
	}
	if !isNumber {
		return nil, ""
	}
	return it, found[1]
}

// nanoseconds returns a Duration, at most the longest.
func nanoseconds(count uint64) time.Duration {
	if count > uint64(forever) {
		return forever
	}
	return time.Duration(count)
}

// write replaces the file: all of it is there, or the old one.
func (file *journalFile) write(it entry, schedule string) error {
	begin := strconv.FormatInt(int64(it.begin), 10)
	if it.isOver {
		begin = "none"
	}
	state := strings.Trim(fmt.Sprint(it.state), "[]")
	text := fmt.Sprintf("%sschedule %s\nstate %s\nattempts %d\nended %d\nbegin %s\nat %d\nerror %s\nend\n",
		firstLine, schedule, state, it.attempts, it.ended, begin, it.at, letters(it.last))
	fresh, err := os.OpenFile(file.name+".new", os.O_WRONLY|os.O_CREATE|os.O_TRUNC, 0o666)
	if err == nil {
		_, err = fresh.WriteString(text)
		if err == nil {
			err = fresh.Sync()
		}
		if closed := fresh.Close(); err == nil {
			err = closed
		}
		if err == nil {
			err = os.Rename(fresh.Name(), file.name)
		}
		if err != nil {
			os.Remove(fresh.Name())
		}
	}
	if err == nil {
		err = file.syncFolder()
	}
	if err != nil {
		return fmt.Errorf("zsched: journal %s: %w", file.name, err)
	}
	return nil
}

// letters returns an error's text as a line has it.
func letters(text string) string {
	found := []rune(text)
	if len(found) > lettersMost {
		found = found[:lettersMost]
	}
	for i, it := range found {
		if it < ' ' || it > '~' {
			found[i] = '?'
		}
	}
	if text = strings.Trim(string(found), " "); text == "" {
		return "?"
	}
	return text
}

// remove removes the file after a success.
func (file *journalFile) remove() error {
	err := os.Remove(file.name)
	if err == nil {
		err = file.syncFolder()
	}
	if err != nil {
		return fmt.Errorf("zsched: journal %s: %w", file.name, err)
	}
	return nil
}

func (file *journalFile) syncFolder() error {
	folder, err := os.Open(filepath.Dir(file.name))
	if err != nil {
		return err
	}
	defer folder.Close()
	return folder.Sync()
}

package zsched_test

import (
	"context"
	"errors"
	"fmt"
	"os"
	"os/exec"
	"path/filepath"
	"strings"
	"syscall"
	"testing"
	"time"

	zsched "github.com/zsched/zsched/bindings/go"
)

const policy = "(exponential(100) && recurs(3))"

// journaled returns a loop over a file that doesn't sleep.
func journaled(text, file string, killed ...uint64) *zsched.Retry {
	loop := retry(text)
	loop.Clock, loop.Journal = new(zsched.TestClock), zsched.NewJournal(file, killed...)
	return loop
}

func read(t *testing.T, file string) string {
	data, err := os.ReadFile(file)
	if err != nil {
		t.Fatal(err)
	}
	return string(data)
}

func isThere(file string) bool {
	_, err := os.Stat(file)
	return err == nil
}

func line(t *testing.T, file, name string) string {
	for _, it := range strings.Split(read(t, file), "\n") {
		if strings.HasPrefix(it, name+" ") {
			return it[len(name)+1:]
		}
	}
	t.Fatal(name)
	return ""
}

// halted is a panic that ends a call as a kill does: nothing is written after it.
type halted struct{}

// halt makes calls, each of which ends in the attempt with a number, and returns how many attempts there were.
func halt(loop *zsched.Retry, attempts int) (made int) {
	defer func() { _ = recover() }()
	_ = loop.Do(context.Background(), func(context.Context) error {
		if made++; made == attempts {
			panic(halted{})
		}
		return errBusy
	})
	return
}

func TestAJournalIsWrittenAsDescribed(t *testing.T) {
	file := filepath.Join(t.TempDir(), "job.journal")
	loop := journaled(policy, file)
	before := loop.Clock.Now().UnixNano()
	number, said := 0, []string(nil)
	err := loop.Do(context.Background(), func(context.Context) error {
		if number++; number < 3 {
			said = append(said, read(t, file))
			loop.Clock.(*zsched.TestClock).Advance(5 * time.Millisecond)
			return fmt.Errorf("busy\n%s é", strings.Repeat("x", 300))
		}
		said = append(said, read(t, file))
		return nil
	})
	if err != nil || isThere(file) || isThere(file+".new") || isThere(file+".lock") {
		t.Error(err)
	}
	schedule := zsched.MustCompile(policy)
	for i, passed := range []time.Duration{0, 105 * time.Millisecond, 310 * time.Millisecond} {
		killed := schedule.Clone()
		begin, _, _ := killed.Plan(zsched.Turn{Began: passed, Ended: passed})
		wanted := fmt.Sprintf("zsched journal 1\nschedule %s\nstate %s\nattempts %d\nended %d\nbegin %d\nat %d\n"+
			"error killed in attempt %d\nend\n", policy, strings.Trim(fmt.Sprint(killed.State()), "[]"), i+1, passed, begin,
			before+int64(passed), i+1)
		if said[i] != wanted {
			t.Errorf("%s is not %s", said[i], wanted)
		}
		_, _, _ = schedule.Plan(zsched.Turn{Began: passed, Ended: passed + 5*time.Millisecond})
	}
}

func TestAJobThatGaveUpSaysSoNowAndLater(t *testing.T) {
	file := filepath.Join(t.TempDir(), "job.journal")
	loop, attempts := journaled(policy, file), 0
	attempt := func(context.Context) error {
		attempts++
		return errBusy
	}
	if err := loop.Do(context.Background(), attempt); err != errBusy || line(t, file, "begin") != "none" {
		t.Error(err)
	}
	before := read(t, file)
	for i := 0; i < 2; i++ {
		gaveUp := new(zsched.GaveUpError)
		err := loop.Do(context.Background(), attempt)
		if !errors.As(err, &gaveUp) || gaveUp.Attempts != 4 || gaveUp.Last != "busy" || attempts != 4 ||
			read(t, file) != before || err.Error() != "zsched: journal "+file+": gave up after 4 attempts: busy" {
			t.Error(err, attempts)
		}
	}
	for name, change := range map[string]func(*zsched.Retry){
		"budget":      func(loop *zsched.Retry) { loop.Budget = zsched.NewBudget(1, 0) },
		"deadline":    func(loop *zsched.Retry) { loop.Deadline = 1 },
		"not retried": func(loop *zsched.Retry) { loop.RetryIf = func(error) bool { return false } },
	} {
		other := journaled(policy, file+name)
		change(other)
		if err := other.Do(context.Background(), busy); err != errBusy || line(t, file+name, "begin") != "none" {
			t.Error(name, err)
		}
	}
}

func TestAKilledAttemptCounts(t *testing.T) {
	file := filepath.Join(t.TempDir(), "job.journal")
	attempts := 0
	for i := 0; i < 16; i++ {
		attempts += halt(journaled(policy, file), 1)
	}
	if attempts != 4 || line(t, file, "begin") != "none" || line(t, file, "error") != "killed in attempt 4" {
		t.Error(attempts, read(t, file))
	}
	gaveUp := new(zsched.GaveUpError)
	if err := journaled(policy, file).Do(context.Background(), busy); !errors.As(err, &gaveUp) || gaveUp.Attempts != 4 {
		t.Error(err)
	}
	// A kill has the code that the journal says.
	for code, wanted := range map[uint64]int{503: 4, 404: 1} {
		coded := filepath.Join(t.TempDir(), "job.journal")
		made := 0
		for i := 0; i < 6; i++ {
			made += halt(journaled("(exponential(100) && recurs(3)).whileInput(>= 500)", coded, code), 1)
		}
		if made != wanted {
			t.Error(code, made)
		}
	}
	err := journaled("recurs(3).whileInput(>= 500)", file+"2").Do(context.Background(), busy)
	if err == nil || !strings.Contains(err.Error(), "which one a killed attempt has") || isThere(file+"2") {
		t.Error(err)
	}
}

// In another process, which the test below starts.
func TestMain(m *testing.M) {
	if file := os.Getenv("ZSCHED_TEST_JOURNAL"); file != "" {
		loop := retry(policy)
		loop.Journal = zsched.NewJournal(file)
		err := loop.Do(context.Background(), func(context.Context) error {
			if os.Getenv("ZSCHED_TEST_KILLED") != "" {
				_ = syscall.Kill(os.Getpid(), syscall.SIGKILL)
			}
			fmt.Println("begun")
			time.Sleep(time.Minute)
			return nil
		})
		fmt.Println(err)
		os.Exit(0)
	}
	os.Exit(m.Run())
}

func TestAProcessThatIsKilledGoesOnAndOneAtATimeHasTheFile(t *testing.T) {
	file := filepath.Join(t.TempDir(), "job.journal")
	command := func(more ...string) *exec.Cmd {
		it := exec.Command(os.Args[0])
		it.Env = append(append(os.Environ(), "ZSCHED_TEST_JOURNAL="+file), more...)
		return it
	}
	for i := 1; i <= 2; i++ {
		if err := command("ZSCHED_TEST_KILLED=1").Run(); err == nil || line(t, file, "attempts") != fmt.Sprint(i) {
			t.Error(i, err)
		}
	}
	other := command()
	out, _ := other.StdoutPipe()
	if err := other.Start(); err != nil {
		t.Fatal(err)
	}
	_, _ = out.Read(make([]byte, 6))
	fault := new(zsched.JournalError)
	if err := journaled(policy, file).Do(context.Background(), busy); !errors.As(err, &fault) || fault.Why != "in use" {
		t.Error(err)
	}
	_ = other.Process.Kill()
	_ = other.Wait()
	good := func(context.Context) error { return nil }
	if err := journaled(policy, file).Do(context.Background(), good); err != nil || isThere(file) {
		t.Error(err)
	}
}

func TestAKillAtEachStepOfAWriteLosesNoCount(t *testing.T) {
	for _, left := range []string{"nothing", "an empty new file", "a cut new file", "a whole new file", "a renamed file"} {
		file := filepath.Join(t.TempDir(), "job.journal")
		halt(journaled(policy, file), 2)
		old := read(t, file)
		halt(journaled(policy, file), 1)
		fresh := read(t, file)
		switch left {
		case "an empty new file":
			_ = os.WriteFile(file+".new", nil, 0o666)
		case "a cut new file":
			_ = os.WriteFile(file+".new", []byte(fresh[:40]), 0o666)
		case "a whole new file":
			_ = os.WriteFile(file+".new", []byte(fresh), 0o666)
		}
		wanted := 2
		if left == "a renamed file" {
			wanted = 1
		} else {
			_ = os.WriteFile(file, []byte(old), 0o666)
		}
		made := 0
		_ = journaled(policy, file).Do(context.Background(), func(context.Context) error {
			made++
			return errBusy
		})
		if made != wanted || line(t, file, "attempts") != "4" || isThere(file+".new") {
			t.Error(left, made)
		}
	}
}

func TestAFullDiskBeginsNoAttempt(t *testing.T) {
	file := filepath.Join(t.TempDir(), "job.journal")
	if err := os.Symlink("/dev/full", file+".new"); err != nil {
		t.Fatal(err)
	}
	attempts := 0
	fail := func(context.Context) error {
		attempts++
		return errBusy
	}
	err := journaled(policy, file).Do(context.Background(), fail)
	if !errors.Is(err, syscall.ENOSPC) || !strings.Contains(err.Error(), file) || attempts != 0 || isThere(file) ||
		isThere(file+".new") {
		t.Error(err, attempts)
	}
	err = journaled(policy, file).Do(context.Background(), func(context.Context) error {
		attempts++
		_ = os.Symlink("/dev/full", file+".new")
		return errBusy
	})
	if !errors.Is(err, syscall.ENOSPC) || !errors.Is(err, errBusy) || attempts != 1 ||
		line(t, file, "error") != "killed in attempt 1" {
		t.Error(err, attempts)
	}
}

func TestAFileThatIsNoJournalOfThisLoopIsANamedErrorAndUnchanged(t *testing.T) {
	file := filepath.Join(t.TempDir(), "job.journal")
	halt(journaled(policy, file), 2)
	whole := read(t, file)
	replaced := func(old, new string) string {
		if !strings.Contains(whole, old) {
			t.Fatal(old)
		}
		return strings.Replace(whole, old, new, 1)
	}
	state := line(t, file, "state")
	first, rest, _ := strings.Cut(state, " ")
	for _, it := range [][2]string{
		{"", "empty"}, {"zsched journal 2\n" + whole, "another version"},
		{replaced("journal 1", "journal 12"), "another version"},
		{"zsched jour", "cut"}, {"zsched journal 1", "cut"}, {whole[:len(whole)-1], "cut"}, {whole[:60], "cut"},
		{"[1, 2]\n", "no journal"}, {replaced("journal 1", "journal 01"), "no journal"},
		{whole + "more\nend\n", "no journal"},
		{replaced("attempts", "attempt"), "no journal"}, {replaced("attempts ", "attempts 0"), "no journal"},
		{replaced("ended ", "ended -"), "no journal"}, {replaced("ended ", "ended 99999999999999999999"), "no journal"},
		{replaced("begin ", "begin  "), "no journal"}, {replaced("error killed", "error k\xc3illed"), "no journal"},
		{replaced(policy, "(exponential(100) && recurs(4))"), "another policy"},
		{replaced(state, rest), "another version"}, {replaced(first, "7"), "another version"},
	} {
		_ = os.WriteFile(file, []byte(it[0]), 0o666)
		fault, attempts := new(zsched.JournalError), 0
		err := journaled(policy, file).Do(context.Background(), func(context.Context) error {
			attempts++
			return nil
		})
		if !errors.As(err, &fault) || fault.Why != it[1] || fault.File != file || attempts != 0 || read(t, file) != it[0] ||
			err.Error() != "zsched: journal "+file+": "+it[1] {
			t.Errorf("%q: %v", it[0], err)
		}
	}
}

func TestACallOverRestartsWaitsAndKeepsItsDeadline(t *testing.T) {
	for _, it := range []struct {
		passed, waited time.Duration
		deadline       time.Duration
		gaveUp         bool
	}{
		{0, 200 * time.Millisecond, 0, false}, {150 * time.Millisecond, 50 * time.Millisecond, 0, false},
		{time.Hour, 0, 0, false}, {-time.Hour, 200 * time.Millisecond, 0, false},
		{0, 200 * time.Millisecond, time.Minute, false}, {time.Hour, 0, time.Minute, true},
	} {
		file := filepath.Join(t.TempDir(), "job.journal")
		loop := journaled(policy, file)
		clock := loop.Clock.(*zsched.TestClock)
		// It ends in the second attempt, at 101 ms, and the next begins 201 ms later.
		halt(loop, 2)
		loop.Deadline = it.deadline
		clock.Advance(it.passed)
		before, began, gaveUp := clock.Now(), time.Duration(-1), new(zsched.GaveUpError)
		err := loop.Do(context.Background(), func(context.Context) error {
			began = clock.Now().Sub(before)
			return nil
		})
		wrong := began < it.waited || began > it.waited+2*time.Millisecond
		if errors.As(err, &gaveUp) != it.gaveUp || wrong != it.gaveUp {
			t.Error(it, began, err)
		}
	}
	ctx, cancel := context.WithCancel(context.Background())
	file := filepath.Join(t.TempDir(), "job.journal")
	err := journaled(policy, file).Do(ctx, func(context.Context) error {
		cancel()
		return errBusy
	})
	if !errors.Is(err, context.Canceled) || line(t, file, "error") != "killed in attempt 1" {
		t.Error(err)
	}
	short, free := context.WithTimeout(context.Background(), 50*time.Second)
	defer free()
	loop := retry("(spaced(100000) && recurs(3))")
	loop.Journal = zsched.NewJournal(file + "2")
	for i := 1; i <= 2; i++ {
		err = loop.Do(short, busy)
		if !errors.Is(err, context.DeadlineExceeded) || line(t, file+"2", "attempts") != "1" ||
			line(t, file+"2", "error") != "busy" {
			t.Error(err)
		}
	}
}

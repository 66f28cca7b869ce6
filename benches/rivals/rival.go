// Prints the nanoseconds of a call that doesn't fail by cenkalti's backoff.
package main

import (
	"fmt"
	"os"
	"strconv"
	"time"

	"github.com/cenkalti/backoff"
)

func main() {
	count, _ := strconv.Atoi(os.Args[1])
	best := time.Hour
	for run := 0; run < 15; run++ {
		begun := time.Now()
		for i := 0; i < count; i++ {
			_ = backoff.Retry(func() error { return nil }, backoff.WithMaxRetries(backoff.NewExponentialBackOff(), 8))
		}
		if took := time.Since(begun); took < best {
			best = took
		}
	}
	fmt.Println("cenkalti", best.Nanoseconds()/int64(count))
}

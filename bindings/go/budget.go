//go:build cgo && linux && (amd64 || arm64)

package zsched

import (
	"fmt"
	"math"
	"sync"
)

// Budget is the tokens that many calls share, as in gRPC's retry throttling. A failed attempt takes a
// token, and one that doesn't fail adds the ratio, up to the number of tokens at first. A retry follows
// only while more than half of that number are there; else the call gives up, as if its schedule were
// done. So calls stop retrying when most of them fail. NewBudget makes one; the zero value lets no call
// retry. Goroutines may share a budget.
type Budget struct {
	mutex               sync.Mutex
	most, ratio, tokens float64
}

// NewBudget returns a budget with all its tokens. gRPC's documents have 10 tokens and the ratio 0.1. It
// panics if one of them is negative, infinite or no number.
func NewBudget(tokens, ratio float64) *Budget {
	if !(tokens >= 0 && tokens <= math.MaxFloat64 && ratio >= 0 && ratio <= math.MaxFloat64) {
		panic(fmt.Sprintf("zsched: a budget of %v tokens and the ratio %v", tokens, ratio))
	}
	return &Budget{most: tokens, ratio: ratio, tokens: tokens}
}

// Tokens returns the tokens that are there.
func (budget *Budget) Tokens() float64 { return budget.change(0) }

// Add adds the ratio after an attempt that didn't fail.
func (budget *Budget) Add() { budget.change(budget.ratio) }

// Take takes a token after a failed attempt. It returns whether a retry may follow.
func (budget *Budget) Take() bool { return budget.change(-1) > budget.most/2 }

func (budget *Budget) change(by float64) float64 {
	budget.mutex.Lock()
	defer budget.mutex.Unlock()
	budget.tokens = math.Max(0, math.Min(budget.most, budget.tokens+by))
	return budget.tokens
}

//go:build !cgo

// Package zsched calls a library in C, which its module has.
package zsched

var _ = zsched_needs_cgo_and_a_C_compiler

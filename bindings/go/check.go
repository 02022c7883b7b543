//go:build linux && (amd64 || arm64) && cgo

package firthnapkin

/*
#include "check.h"

static finding check(const char *source, size_t length, firthnapkin_limits limits, size_limits sizes) {
	return check_source((const uint8_t *)source, length, &limits, &sizes);
}
*/
import "C"

import "runtime"

// Check returns nil if a source is a document within limits, and otherwise the error of ParseWithin. No document is built, and
// nothing of Go's memory is allocated. A source with an operation beyond a limit is read twice.
func Check(source string, limits Limits) error {
	words, err := limits.words()
	if err != nil {
		return err
	}
	found := C.check(bytesOf(source), C.size_t(len(source)), words.call, words.sizes)
	runtime.KeepAlive(source)
	switch found.status {
	case C.FIRTHNAPKIN_OK:
		return nil
	case C.OPERATION_TOO_LARGE:
		// The error is at the operation's node.
		_, err := parse(source, words)
		return err
	default:
		// A copy, since the pointer moves it to the heap.
		failure := found.error
		return errorOf(found.status, source, &failure)
	}
}

// CheckNamed is Check of a source with a name, as that of its file. A *SyntaxError has it as SourceName.
func CheckNamed(name, source string, limits Limits) error {
	return named(name, Check(source, limits))
}

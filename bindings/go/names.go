//go:build linux && (amd64 || arm64) && cgo

package firthnapkin

/*
#include "calls.h"
*/
import "C"

import "strconv"

// The library's names of numbers, each read once.
var (
	kindNames      = namesOf(func(number C.uint32_t) *C.char { return C.firthnapkin_kind_name(number) })
	tokenKindNames = namesOf(func(number C.uint32_t) *C.char { return C.firthnapkin_token_kind_name(number) })
	errorKindNames = namesOf(func(number C.uint32_t) *C.char { return C.firthnapkin_error_kind_name(number) })
	detailNames    = namesOf(func(number C.uint32_t) *C.char { return C.firthnapkin_error_detail_name(number) })
)

func namesOf(nameOf func(C.uint32_t) *C.char) []string {
	var names []string
	for name := ""; ; names = append(names, name) {
		if name = C.GoString(nameOf(C.uint32_t(len(names)))); name == "unknown" {
			return names
		}
	}
}

// nameOf returns the name of a number, and the number of a type if it has none.
func nameOf(names []string, number uint32, typeName string) string {
	if uint64(number) < uint64(len(names)) {
		return names[number]
	}
	return typeName + "(" + strconv.FormatUint(uint64(number), 10) + ")"
}

// String returns the kind's name, as "fragment_spread".
func (k Kind) String() string {
	return nameOf(kindNames, uint32(k), "Kind")
}

// String returns the kind's name, as "curly_open".
func (k TokenKind) String() string {
	return nameOf(tokenKindNames, uint32(k), "TokenKind")
}

// String returns the kind's name, as "unexpected_token".
func (k ErrorKind) String() string {
	if k == OperationTooLarge {
		return "operation_too_large"
	}
	return nameOf(errorKindNames, uint32(k), "ErrorKind")
}

// String returns the detail's name, as "unknown_character".
func (d ErrorDetail) String() string {
	return nameOf(detailNames, uint32(d), "ErrorDetail")
}

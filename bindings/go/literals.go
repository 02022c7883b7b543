//go:build linux && (amd64 || arm64) && cgo

package firthnapkin

/*
#include "calls.h"

typedef enum { A_VALUE, A_CONSTANT, A_TYPE } literal_form;

typedef struct {
	size_t nodes_length, texts_length;
	firthnapkin_error error;
} literal_outcome;

static uint32_t parse_literal(literal_form form, const char *source, size_t length, firthnapkin_limits limits, void *nodes,
                              size_t nodes_capacity, char *texts, size_t texts_capacity, literal_outcome *t) {
	if (form == A_TYPE)
		return parse_type_on_stack((const uint8_t *)source, length, &limits, nodes, nodes_capacity, &t->nodes_length,
		                           (uint8_t *)texts, texts_capacity, &t->texts_length, &t->error);
	return parse_value_on_stack((const uint8_t *)source, length, form == A_CONSTANT, &limits, nodes, nodes_capacity,
	                            &t->nodes_length, (uint8_t *)texts, texts_capacity, &t->texts_length, &t->error);
}
*/
import "C"

import (
	"runtime"
	"unsafe"
)

// ParsedValue is a value that was parsed alone. Its document has the value's nodes, and no definitions.
type ParsedValue struct{ part }

// Value returns the value as Argument.Value does.
func (v ParsedValue) Value() any { return v.document.valueOf(v.index) }

// ParsedType is a type that was parsed alone. Its document has one node, and no definitions.
type ParsedType struct{ part }

// Type returns the type without spaces, as "[ID!]!".
func (t ParsedType) Type() string { return t.document.Meaning(t.index) }

// ParseValue returns the value that a source is within limits, as {a: [1, $b]}. Limits on operations say nothing of it. The errors are
// those of ParseWithin: a *SyntaxError if the source is not one value.
func ParseValue(source string, limits Limits) (ParsedValue, error) {
	found, err := parseLiteral(C.A_VALUE, source, limits)
	return ParsedValue{found}, err
}

// ParseConstValue is ParseValue of a value without variables. One with a variable is a *SyntaxError.
func ParseConstValue(source string, limits Limits) (ParsedValue, error) {
	found, err := parseLiteral(C.A_CONSTANT, source, limits)
	return ParsedValue{found}, err
}

// ParseType returns the type that a source is within limits, as [ID!]!, otherwise as ParseValue.
func ParseType(source string, limits Limits) (ParsedType, error) {
	found, err := parseLiteral(C.A_TYPE, source, limits)
	return ParsedType{found}, err
}

// parseLiteral returns the part that all of a source is, or no part and an error.
func parseLiteral(form C.literal_form, source string, limits Limits) (part, error) {
	words, err := limits.words()
	if err != nil {
		return part{}, err
	}
	nodesCapacity, textsCapacity := atFirst(source)+16, atFirst(source)+64
	for {
		nodes, texts, found := make([]Node, nodesCapacity), make([]byte, textsCapacity), new(C.literal_outcome)
		status := C.parse_literal(form, bytesOf(source), C.size_t(len(source)), words.call, unsafe.Pointer(&nodes[0]),
			C.size_t(nodesCapacity), (*C.char)(unsafe.Pointer(&texts[0])), C.size_t(textsCapacity), found)
		runtime.KeepAlive(source)
		switch status {
		case C.FIRTHNAPKIN_OK:
			length := found.nodes_length
			return part{documentOf(source, nodes[:length:length], string(texts[:found.texts_length]), nil), 0}, nil
		case C.FIRTHNAPKIN_BUFFER_TOO_SMALL:
			nodesCapacity, textsCapacity = int(found.nodes_length)+1, int(found.texts_length)+1
		default:
			return part{}, errorWith(status, source, &found.error, noWords)
		}
	}
}

// noWords says nothing of a token where no definition is wanted.
func noWords(string, Position, Position) string { return "" }

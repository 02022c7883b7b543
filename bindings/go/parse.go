//go:build linux && (amd64 || arm64) && cgo

// Package firthnapkin parses GraphQL's executable documents (October 2021): operations, fragments and what is in them.
//
// The parser is proved; this package calls it by cgo and copies nothing. A Document has the parts of a source by their names:
//
//	document, err := firthnapkin.Parse("{ user(id: 4) { name } }")
//	if err != nil {
//		return err
//	}
//	for _, operation := range document.Operations() {
//		for _, selection := range operation.Selections() {
//			if field, ok := selection.(firthnapkin.Field); ok {
//				fmt.Println(field.ResponseKey(), field.Line(), field.Column())
//			}
//		}
//	}
//
// It is also a list of nodes, each part of the source before the parts in it. All calls may be made from any number of
// goroutines at once.
package firthnapkin

/*
#cgo CFLAGS: -D_GNU_SOURCE -I${SRCDIR}/native -I${SRCDIR}/../../include -I${SRCDIR}/..
#cgo amd64 LDFLAGS: -L${SRCDIR}/native -L${SRCDIR}/../../out
#cgo arm64 LDFLAGS: -L${SRCDIR}/native/aarch64 -L${SRCDIR}/../../out/aarch64
#cgo LDFLAGS: -l:libfirthnapkin.a -pthread
#include "calls.h"
#include "sizes.h"

typedef struct {
	firthnapkin_limits call;
	size_limits sizes;
} package_limits;

typedef struct {
	size_t nodes_length, texts_length, complexities_length;
	excess beyond;
	firthnapkin_error error;
} outcome;

// Without capacity for complexities the source is only parsed.
static uint32_t parse(const char *source, size_t length, package_limits limits, void *nodes, size_t nodes_capacity,
                      char *texts, size_t texts_capacity, void *complexities, size_t complexities_capacity, outcome *t) {
	if (complexities_capacity == 0)
		return parse_on_stack((const uint8_t *)source, length, &limits.call, nodes, nodes_capacity, &t->nodes_length,
		                      (uint8_t *)texts, texts_capacity, &t->texts_length, &t->error);
	uint32_t status = parse_complexities_on_stack((const uint8_t *)source, length, &limits.call, nodes, nodes_capacity,
	                                              &t->nodes_length, (uint8_t *)texts, texts_capacity, &t->texts_length,
	                                              complexities, complexities_capacity, &t->complexities_length, &t->error);
	if (status != FIRTHNAPKIN_OK) return status;
	t->beyond = first_beyond(complexities, t->complexities_length, &limits.sizes);
	return t->beyond.operation < t->complexities_length ? OPERATION_TOO_LARGE : status;
}
*/
import "C"

import (
	"errors"
	"fmt"
	"reflect"
	"runtime"
	"unsafe"

	_ "firthnapkin.example/go/native" // so that go mod vendor copies the archive and the headers
	_ "firthnapkin.example/go/native/aarch64"
)

// MaxDepth is the largest depth that ParseWithin takes.
const MaxDepth = C.FIRTHNAPKIN_MAX_DEPTH

// AnyTokens is a number of tokens that no source exceeds.
const AnyTokens = 1<<32 - 1

// AnyNumber means no limit on a count of an operation. Counts saturate there.
const AnyNumber = 1<<32 - 1

// Version is the library's version.
const Version = C.FIRTHNAPKIN_VERSION_STRING

// Limits are what a source may have. The zero value allows no bracket, no token and no field, so begin with DefaultLimits. The
// limits on each operation are from 0 to AnyNumber, which means no limit, and hold for the counts of its Complexity.
type Limits struct {
	Depth  int // how deep brackets may be nested: from 0 to MaxDepth
	Tokens int // how many tokens there may be, the end of the source not counted; AnyTokens and more are no limit

	// tables.toml: complexity as limits

	Fields     int // how many fields an operation may have, with every fragment expanded
	Aliases    int // how many aliases an operation may have
	Directives int // how many directives an operation may have
	RootFields int // how many fields of an operation may be in no other field
	FieldDepth int // how deep fields may be nested in one another
	// tables.toml: end
}

// DefaultLimits are those of Parse: brackets nested 200 deep, and no other limit.
var DefaultLimits = Limits{
	Depth:  200,
	Tokens: AnyTokens,

	// tables.toml: complexity as defaults

	Fields:     AnyNumber,
	Aliases:    AnyNumber,
	Directives: AnyNumber,
	RootFields: AnyNumber,
	FieldDepth: AnyNumber,
	// tables.toml: end
}

// What the calls return besides a *SyntaxError.
var (
	// ErrNotUTF8 says that the source is not UTF-8.
	ErrNotUTF8 = errors.New("firthnapkin: the source is not UTF-8")
	// ErrOutOfMemory says that memory ran out.
	ErrOutOfMemory = errors.New("firthnapkin: memory ran out")
	// ErrSourceTooLong says that the source has 4 GiB or more.
	ErrSourceTooLong = errors.New("firthnapkin: the source has 4 GiB or more")
	// ErrInvalidLimit says that a limit is out of its range; the error that wraps it says which.
	ErrInvalidLimit = errors.New("firthnapkin: invalid limit")
)

// Parse parses a source within DefaultLimits. The error is a *SyntaxError if the source isn't a document within them, and
// otherwise one of the Err values.
func Parse(source string) (*Document, error) {
	return ParseWithin(source, DefaultLimits)
}

// ParseNamed is ParseWithin of a source with a name, as that of its file. The document and a *SyntaxError have it as SourceName.
func ParseNamed(name, source string, limits Limits) (*Document, error) {
	document, err := ParseWithin(source, limits)
	if err != nil {
		return nil, named(name, err)
	}
	document.SourceName = name
	return document, nil
}

// numbers are the fields of Limits: ints, in the order of the library's words, and then those on operations. In later words
// of the library 0 is no limit.
type numbers [unsafe.Sizeof(Limits{}) / unsafe.Sizeof(0)]int

// How many words the library's limits have, and how many of those have a field.
const (
	wordCount = C.sizeof_firthnapkin_limits / C.sizeof_uint32_t
	ownCount  = len(numbers{}) - C.SIZES
)

// words returns limits as the library takes them: a word for each field, and 0 in the words that have none.
func (limits Limits) words() (words C.package_limits, err error) {
	if limits.Depth < 0 || limits.Depth > MaxDepth {
		return words, fmt.Errorf("%w: Depth %d is not from 0 to %d", ErrInvalidLimit, limits.Depth, MaxDepth)
	}
	all := (*[wordCount + C.SIZES]C.uint32_t)(unsafe.Pointer(&words))
	for i, value := range *(*numbers)(unsafe.Pointer(&limits)) {
		place, isSize := i, i >= ownCount
		if isSize {
			place += wordCount - ownCount
		}
		if value < 0 {
			return words, belowZero(nameOfLimit(i), value)
		}
		if isSize && value > AnyNumber {
			return words, fmt.Errorf("%w: %s %d is above AnyNumber", ErrInvalidLimit, nameOfLimit(i), value)
		}
		all[place] = word(value)
	}
	return words, nil
}

// nameOfLimit returns the name of a field of Limits.
func nameOfLimit(i int) string {
	return reflect.TypeOf(Limits{}).Field(i).Name
}

// within returns the default limits with another depth and another number of tokens.
func within(depth, tokens int) Limits {
	limits := DefaultLimits
	limits.Depth, limits.Tokens = depth, tokens
	return limits
}

// word returns a number as the library takes it. No source has more of anything than a word holds.
func word(value int) C.uint32_t {
	if value > AnyTokens {
		return AnyTokens
	}
	return C.uint32_t(value)
}

// belowZero returns the error of a limit that is below 0.
func belowZero(name string, value int) error {
	return fmt.Errorf("%w: %s %d is below 0", ErrInvalidLimit, name, value)
}

// ParseWithin is Parse with other limits. The source is read once. The error of too many tokens is at the first token past the
// limit, and found before anything is built. The first operation past a limit is an error at its start. With a limit on operations,
// a reachable spread of an unknown or cyclic fragment is also an error.
//
// The error wraps ErrInvalidLimit, and the source isn't read, if the depth is not from 0 to MaxDepth, the number of tokens is below
// 0, or another limit is not from 0 to AnyNumber.
func ParseWithin(source string, limits Limits) (*Document, error) {
	words, err := limits.words()
	if err != nil {
		return nil, err
	}
	return parse(source, words)
}

// How many nodes or tokens are allocated for the first call, at most.
const mostAtFirst = 1 << 20

// Few sources have more nodes than one for six bytes; for others, and for the largest, the second call has the capacity that
// the first returns. Without a limit on operations there is no capacity for their numbers.
func parse(source string, limits C.package_limits) (*Document, error) {
	first, operations := atFirst(source), 0
	if isAnyLimited(limits.sizes) {
		operations = first/8 + 4
	}
	nodesCapacity, textsCapacity := first+16, first+64
	for {
		nodes, texts, result := make([]Node, nodesCapacity), make([]byte, textsCapacity), new(C.outcome)
		complexities := make([]operationComplexity, operations)
		status := C.parse(bytesOf(source), C.size_t(len(source)), limits, unsafe.Pointer(&nodes[0]), C.size_t(nodesCapacity),
			(*C.char)(unsafe.Pointer(&texts[0])), C.size_t(textsCapacity), startOf(complexities), C.size_t(operations), result)
		runtime.KeepAlive(source)
		switch status {
		case C.FIRTHNAPKIN_OK:
			return documentOf(source, nodes[:result.nodes_length:result.nodes_length], string(texts[:result.texts_length]),
				complexities[:result.complexities_length]), nil
		case C.FIRTHNAPKIN_BUFFER_TOO_SMALL:
			nodesCapacity, textsCapacity = int(result.nodes_length)+1, int(result.texts_length)+1
			if operations > 0 {
				operations = int(result.complexities_length) + 1
			}
		case C.OPERATION_TOO_LARGE:
			return nil, tooLarge(source, nodes, complexities, &limits.sizes, result.beyond)
		default:
			return nil, errorOf(status, source, &result.error)
		}
	}
}

// atFirst returns how many nodes or tokens are allocated for the first call.
func atFirst(source string) int {
	if first := len(source) / 6; first < mostAtFirst {
		return first
	}
	return mostAtFirst
}

// errorOf returns the error of a status, with what the call found.
func errorOf(status C.uint32_t, source string, found *C.firthnapkin_error) error {
	return errorWith(status, source, found, wordsOn)
}

// errorWith is errorOf with other words on an unexpected token.
func errorWith(status C.uint32_t, source string, found *C.firthnapkin_error, words func(string, Position, Position) string) error {
	switch status {
	case C.FIRTHNAPKIN_SYNTAX_ERROR, C.FIRTHNAPKIN_TOO_DEEP, C.FIRTHNAPKIN_TOO_MANY_TOKENS, C.FIRTHNAPKIN_UNKNOWN_FRAGMENT,
		C.FIRTHNAPKIN_FRAGMENT_CYCLE:
		return syntaxErrorOf(source, found, words)
	case C.FIRTHNAPKIN_NOT_UTF8:
		return ErrNotUTF8
	case C.FIRTHNAPKIN_OUT_OF_MEMORY:
		return ErrOutOfMemory
	case C.FIRTHNAPKIN_SOURCE_TOO_LONG:
		return ErrSourceTooLong
	case C.FIRTHNAPKIN_INVALID_LIMIT:
		return ErrInvalidLimit
	}
	return fmt.Errorf("firthnapkin: the parser returned %s", C.GoString(C.firthnapkin_status_name(status)))
}

// bytesOf returns a pointer to a string's bytes. C reads them and keeps nothing.
func bytesOf(source string) *C.char {
	return *(**C.char)(unsafe.Pointer(&source))
}

// The nodes of a slice are laid out as the library writes them, and Limits has a field for each of its limits; each of these lines is
// a compile error if that is wrong.
var (
	_ = [1]struct{}{}[C.sizeof_uint32_t*uintptr(ownCount)-unsafe.Offsetof(C.firthnapkin_limits{}.reserved)]
	_ = [1]struct{}{}[unsafe.Sizeof(Node{})-C.sizeof_firthnapkin_node]
	_ = [1]struct{}{}[unsafe.Offsetof(Node{}.Descendants)-unsafe.Offsetof(C.firthnapkin_node{}.descendants)]
	_ = [1]struct{}{}[unsafe.Offsetof(Node{}.Start)-unsafe.Offsetof(C.firthnapkin_node{}.start)]
	_ = [1]struct{}{}[unsafe.Offsetof(Node{}.End)-unsafe.Offsetof(C.firthnapkin_node{}.end)]
	_ = [1]struct{}{}[unsafe.Offsetof(Node{}.NameStart)-unsafe.Offsetof(C.firthnapkin_node{}.name_start)]
	_ = [1]struct{}{}[unsafe.Offsetof(Node{}.NameEnd)-unsafe.Offsetof(C.firthnapkin_node{}.name_end)]
	_ = [1]struct{}{}[unsafe.Offsetof(Node{}.Value)-unsafe.Offsetof(C.firthnapkin_node{}.value)]
	_ = [1]struct{}{}[unsafe.Offsetof(Node{}.ValueLength)-unsafe.Offsetof(C.firthnapkin_node{}.value_length)]
	_ = [1]struct{}{}[unsafe.Offsetof(Position{}.Line)-unsafe.Offsetof(C.firthnapkin_position{}.line)]
	_ = [1]struct{}{}[unsafe.Offsetof(Position{}.Column)-unsafe.Offsetof(C.firthnapkin_position{}.column)]
	_ = [1]struct{}{}[unsafe.Offsetof(Position{}.Byte)-unsafe.Offsetof(C.firthnapkin_position{}.byte)]
)

//go:build linux && (amd64 || arm64) && cgo

package firthnapkin

/*
#include "calls.h"
#include "sizes.h"

// The numbers alone: no nodes and no texts.
static uint32_t complexities(const char *source, size_t length, void *complexities, size_t capacity, size_t *complexities_length,
                             firthnapkin_error *error) {
	firthnapkin_limits loosest = {.depth = FIRTHNAPKIN_MAX_DEPTH, .tokens = UINT32_MAX};
	size_t nodes, texts;
	uint32_t status = parse_complexities_on_stack((const uint8_t *)source, length, &loosest, NULL, 0, &nodes, NULL, 0, &texts,
	                                              complexities, capacity, complexities_length, error);
	if (status == FIRTHNAPKIN_BUFFER_TOO_SMALL && *complexities_length <= capacity) return FIRTHNAPKIN_OK;
	return status;
}

static size_t words_of(char *buffer, const char *source, const void *operation, const void *complexity, const size_limits *limits,
                       size_t number) {
	return write_words((uint8_t *)buffer, (const uint8_t *)source, operation, complexity, limits, number);
}
*/
import "C"

import (
	"runtime"
	"sort"
	"sync"
	"unsafe"
)

// Complexity is how large an operation is with every fragment expanded. Numbers saturate at 1<<32 - 1. They are those of the
// source alone: no schema gives a field a weight, equal fields aren't merged, and @skip and @include leave nothing out.
type Complexity struct {
	// tables.toml: complexity as fields

	Fields     uint32 // the fields, at every depth
	Aliases    uint32 // the fields with an alias
	Directives uint32 // the directives of the operation and of all in it, and of a fragment each time that it is spread
	RootFields uint32 // the fields that are in no other field
	Depth      uint32 // how many fields are nested in one another at most: 1 if no field is in another
	// tables.toml: end
}

// operationComplexity is the complexity of an operation, by its node, as the library writes it.
type operationComplexity struct {
	definition uint32
	Complexity
}

// measured is how large the operations of a document are, found when one is first asked for.
type measured struct {
	once         sync.Once
	complexities []operationComplexity
	err          error
}

// documentOf returns a document, with how large its operations are if that is found.
func documentOf(source string, nodes []Node, texts string, complexities []operationComplexity) *Document {
	// Both are one allocation.
	whole := &struct {
		document Document
		measured measured
	}{document: Document{Source: source, Nodes: nodes, texts: texts}}
	whole.document.measured = &whole.measured
	if len(complexities) > 0 {
		whole.measured.once.Do(func() { whole.measured.complexities = complexities })
	}
	return &whole.document
}

// Complexity returns how large the operation is. Those of all operations are found when one is first asked for, and kept. The error
// is a *SyntaxError if an operation of the document reaches a spread that names no fragment, or that is within the fragment that it
// names, and otherwise ErrOutOfMemory.
func (o Operation) Complexity() (Complexity, error) {
	found := o.document.measured
	if found == nil {
		// The document is a literal of the program's.
		found = new(measured)
	}
	found.once.Do(func() {
		complexities, err := complexitiesOf(o.document.Source)
		found.complexities, found.err = complexities, named(o.document.SourceName, err)
	})
	if found.err != nil {
		return Complexity{}, found.err
	}
	// They are in the order of their nodes.
	i := sort.Search(len(found.complexities), func(i int) bool { return found.complexities[i].definition >= uint32(o.index) })
	return found.complexities[i].Complexity, nil
}

// complexitiesOf returns how large the operations of a document are.
func complexitiesOf(source string) ([]operationComplexity, error) {
	capacity := atFirst(source)/8 + 4
	for {
		complexities, length, found := make([]operationComplexity, capacity), new(C.size_t), new(C.firthnapkin_error)
		status := C.complexities(bytesOf(source), C.size_t(len(source)), startOf(complexities), C.size_t(capacity), length, found)
		runtime.KeepAlive(source)
		switch status {
		case C.FIRTHNAPKIN_OK:
			return complexities[:*length], nil
		case C.FIRTHNAPKIN_BUFFER_TOO_SMALL:
			capacity = int(*length)
		default:
			return nil, errorOf(status, source, found)
		}
	}
}

// tooLarge returns the error of an operation beyond a limit.
func tooLarge(source string, nodes []Node, complexities []operationComplexity, limits *C.size_limits, beyond C.excess) error {
	complexity := &complexities[beyond.operation]
	operation := &nodes[complexity.definition]
	words := make([]byte, C.bytes_of_words(C.size_t(operation.NameEnd-operation.NameStart)))
	length := C.words_of((*C.char)(unsafe.Pointer(&words[0])), bytesOf(source), unsafe.Pointer(operation), unsafe.Pointer(complexity),
		limits, beyond.number)
	runtime.KeepAlive(source)
	return &SyntaxError{Message: string(words[:length]), Kind: OperationTooLarge, Start: operation.Start, End: operation.End, source: source}
}

// isAnyLimited says whether one of the numbers of operations has a limit.
func isAnyLimited(limits C.size_limits) bool {
	for _, most := range limits.most {
		if most != AnyNumber {
			return true
		}
	}
	return false
}

// startOf returns a pointer to the first of some numbers, and none if there are none.
func startOf(complexities []operationComplexity) unsafe.Pointer {
	if len(complexities) == 0 {
		return nil
	}
	return unsafe.Pointer(&complexities[0])
}

// They are laid out as the library writes them; each of these lines is a compile error if that is wrong.
var (
	_ = [1]struct{}{}[unsafe.Sizeof(operationComplexity{})-C.sizeof_firthnapkin_complexity]
	_ = [1]struct{}{}[unsafe.Offsetof(operationComplexity{}.Complexity)-unsafe.Offsetof(C.firthnapkin_complexity{}.fields)]
	// tables.toml: complexity as offsets
	_ = [1]struct{}{}[unsafe.Offsetof(Complexity{}.Fields)+4-unsafe.Offsetof(C.firthnapkin_complexity{}.fields)]
	_ = [1]struct{}{}[unsafe.Offsetof(Complexity{}.Aliases)+4-unsafe.Offsetof(C.firthnapkin_complexity{}.aliases)]
	_ = [1]struct{}{}[unsafe.Offsetof(Complexity{}.Directives)+4-unsafe.Offsetof(C.firthnapkin_complexity{}.directives)]
	_ = [1]struct{}{}[unsafe.Offsetof(Complexity{}.RootFields)+4-unsafe.Offsetof(C.firthnapkin_complexity{}.root_fields)]
	_ = [1]struct{}{}[unsafe.Offsetof(Complexity{}.Depth)+4-unsafe.Offsetof(C.firthnapkin_complexity{}.depth)]
	// tables.toml: end
)

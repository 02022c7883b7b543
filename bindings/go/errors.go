//go:build linux && (amd64 || arm64) && cgo

package firthnapkin

/*
#include "calls.h"
#include "sizes.h"

static uint32_t message(const char *source, size_t length, const firthnapkin_error *error, char *buffer, size_t capacity,
                        size_t *buffer_length) {
	return message_on_stack((const uint8_t *)source, length, error, (uint8_t *)buffer, capacity, buffer_length);
}

static uint32_t excerpt(const char *source, size_t length, const firthnapkin_error *error, char *buffer, size_t capacity,
                        size_t *buffer_length) {
	return excerpt_on_stack((const uint8_t *)source, length, error, (uint8_t *)buffer, capacity, buffer_length);
}
*/
import "C"

import (
	"fmt"
	"runtime"
	"unsafe"
)

// ErrorKind is why a source has no document.
type ErrorKind uint32

// The kinds of errors.
const (
	// tables.toml: errors without invalid_scalar

	UnexpectedToken ErrorKind = C.FIRTHNAPKIN_ERROR_UNEXPECTED_TOKEN // no document could have the token there
	UnexpectedEnd   ErrorKind = C.FIRTHNAPKIN_ERROR_UNEXPECTED_END   // the source ends within a document
	Lexical         ErrorKind = C.FIRTHNAPKIN_ERROR_LEXICAL          // there is no token here: the detail says why
	TooDeep         ErrorKind = C.FIRTHNAPKIN_ERROR_TOO_DEEP         // the token is nested too deep
	TooManyTokens   ErrorKind = C.FIRTHNAPKIN_ERROR_TOO_MANY_TOKENS  // the token is the first past the limit
	UnknownFragment ErrorKind = C.FIRTHNAPKIN_ERROR_UNKNOWN_FRAGMENT // the spread names no fragment of the document
	FragmentCycle   ErrorKind = C.FIRTHNAPKIN_ERROR_FRAGMENT_CYCLE   // the spread is within the fragment that it names, itself or through others
	// tables.toml: end

	OperationTooLarge ErrorKind = C.OPERATION_TOO_LARGE // the operation exceeds a limit: the message says which
)

// ErrorDetail is why there is no token.
type ErrorDetail uint32

// The details of errors.
const (
	NoDetail ErrorDetail = C.FIRTHNAPKIN_DETAIL_NONE

	// tables.toml: details without none, invalid_number

	UnknownCharacter         ErrorDetail = C.FIRTHNAPKIN_DETAIL_UNKNOWN_CHARACTER           // no token begins with the character
	UnexpectedCharacter      ErrorDetail = C.FIRTHNAPKIN_DETAIL_UNEXPECTED_CHARACTER        // a token has begun, and the character can't follow
	UnterminatedString       ErrorDetail = C.FIRTHNAPKIN_DETAIL_UNTERMINATED_STRING         // the source or the line ends within a string
	UnknownCharacterInString ErrorDetail = C.FIRTHNAPKIN_DETAIL_UNKNOWN_CHARACTER_IN_STRING // the character is not allowed in a string
	UnknownEscape            ErrorDetail = C.FIRTHNAPKIN_DETAIL_UNKNOWN_ESCAPE              // what follows a backslash in a string is no escape
	UnexpectedEndInToken     ErrorDetail = C.FIRTHNAPKIN_DETAIL_UNEXPECTED_END_IN_TOKEN     // the source ends within a token
	// tables.toml: end
)

// SyntaxError says why a source has no document within the limits, and where.
type SyntaxError struct {
	Message   string // the error, without its position
	Kind      ErrorKind
	Detail    ErrorDetail
	Character rune // the character of the Detail, otherwise 0
	// The positions of a token, a spread or an operation, or of zero width. Their lines and columns are counted from 0.
	Start, End Position
	// The name of the source, or "" if it has none. A program may set it, as of an error of Tokens or Canonical, which know no name.
	SourceName string

	source string
}

// Error returns the message and the line and column, both counted from 1, as `Unexpected ")". At 2:5`. Columns count characters. The
// name of the source is before them, if it has one, as it is: `Unexpected ")". At pets.graphql:2:5`.
func (e *SyntaxError) Error() string {
	name := e.SourceName
	if name != "" {
		name += ":"
	}
	return fmt.Sprintf("%s. At %s%d:%d", e.Message, name, e.Line(), e.Column())
}

// named gives a *SyntaxError the name of its source, and returns each error, and nil.
func named(name string, err error) error {
	if syntax, ok := err.(*SyntaxError); ok {
		syntax.SourceName = name
	}
	return err
}

// Line returns the line, counted from 1. Lines end at line feeds.
func (e *SyntaxError) Line() int {
	return int(e.Start.Line) + 1
}

// Column returns the column in characters, counted from 1.
func (e *SyntaxError) Column() int {
	return int(e.Start.Column) + 1
}

// Excerpt returns the lines around the error, numbered from 1, with a caret below its character:
//
//	1 | query {
//	2 |   a )
//	  |     ^
//	3 | }
//
// There is no line feed at the end. The excerpt is made anew each time. It is "" if memory ran out.
func (e *SyntaxError) Excerpt() string {
	return excerptAt(e.source, e.Start.Byte)
}

func syntaxErrorOf(source string, found *C.firthnapkin_error, words func(string, Position, Position) string) error {
	message, err := wordsOf(source, found, func(buffer *C.char, capacity C.size_t, length *C.size_t) C.uint32_t {
		return C.message(bytesOf(source), C.size_t(len(source)), found, buffer, capacity, length)
	})
	if err != nil {
		return err
	}
	start, end := positionOf(found.start), positionOf(found.end)
	if found.kind == C.FIRTHNAPKIN_ERROR_UNEXPECTED_TOKEN {
		message += words(source, start, end)
	}
	return &SyntaxError{
		Message: message,
		Kind:    ErrorKind(found.kind),
		Detail:  ErrorDetail(found.detail),
		// The characters of a source are below 0x110000.
		Character: rune(found.character),
		Start:     start,
		End:       end,
		source:    source,
	}
}

// excerptAt returns the lines around a byte of a source, or nothing if there are none.
func excerptAt(source string, byteIndex uint32) string {
	found := new(C.firthnapkin_error)
	found.start.byte = C.uint32_t(byteIndex)
	lines, err := wordsOf(source, found, func(buffer *C.char, capacity C.size_t, length *C.size_t) C.uint32_t {
		return C.excerpt(bytesOf(source), C.size_t(len(source)), found, buffer, capacity, length)
	})
	if err != nil {
		return ""
	}
	return lines
}

// wordsOf returns what a call writes on an error.
func wordsOf(source string, found *C.firthnapkin_error, call func(*C.char, C.size_t, *C.size_t) C.uint32_t) (string, error) {
	for capacity := 256; ; {
		words, length := make([]byte, capacity), new(C.size_t)
		status := call((*C.char)(unsafe.Pointer(&words[0])), C.size_t(capacity), length)
		runtime.KeepAlive(source)
		switch status {
		case C.FIRTHNAPKIN_OK:
			return string(words[:*length]), nil
		case C.FIRTHNAPKIN_BUFFER_TOO_SMALL:
			capacity = int(*length)
		default:
			return "", errorOf(status, source, found)
		}
	}
}

func positionOf(p C.firthnapkin_position) Position {
	return Position{uint32(p.index), uint32(p.line), uint32(p.column), uint32(p.byte)}
}

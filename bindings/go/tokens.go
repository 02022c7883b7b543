//go:build linux && (amd64 || arm64) && cgo

package firthnapkin

/*
#include "calls.h"

static uint32_t cut(const char *source, size_t length, uint32_t max_tokens, void *tokens, size_t capacity, size_t *tokens_length,
                    firthnapkin_error *error) {
	return tokens_on_stack((const uint8_t *)source, length, max_tokens, tokens, capacity, tokens_length, error);
}

static uint32_t canonical(const char *source, size_t length, char *buffer, size_t capacity, size_t *buffer_length,
                          firthnapkin_error *error) {
	return canonical_on_stack((const uint8_t *)source, length, (uint8_t *)buffer, capacity, buffer_length, error);
}
*/
import "C"

import (
	"runtime"
	"unsafe"
)

// TokenKind is the kind of a token.
type TokenKind uint32

// The kinds of tokens.
const (
	// tables.toml: tokens

	TokenEndOfFile       TokenKind = C.FIRTHNAPKIN_TOKEN_END_OF_FILE      // the end of the source, which has no characters
	TokenName            TokenKind = C.FIRTHNAPKIN_TOKEN_NAME             // a name or a word of the language
	TokenString          TokenKind = C.FIRTHNAPKIN_TOKEN_STRING           // a text between quotes
	TokenBlockString     TokenKind = C.FIRTHNAPKIN_TOKEN_BLOCK_STRING     // a text between three quotes on each side
	TokenFloat           TokenKind = C.FIRTHNAPKIN_TOKEN_FLOAT            // a number with a fraction or an exponent
	TokenInt             TokenKind = C.FIRTHNAPKIN_TOKEN_INT              // a number without either
	TokenExclamationMark TokenKind = C.FIRTHNAPKIN_TOKEN_EXCLAMATION_MARK // `!`
	TokenDollar          TokenKind = C.FIRTHNAPKIN_TOKEN_DOLLAR           // `$`
	TokenParenOpen       TokenKind = C.FIRTHNAPKIN_TOKEN_PAREN_OPEN       // `(`
	TokenParenClose      TokenKind = C.FIRTHNAPKIN_TOKEN_PAREN_CLOSE      // `)`
	TokenBracketOpen     TokenKind = C.FIRTHNAPKIN_TOKEN_BRACKET_OPEN     // `[`
	TokenBracketClose    TokenKind = C.FIRTHNAPKIN_TOKEN_BRACKET_CLOSE    // `]`
	TokenCurlyOpen       TokenKind = C.FIRTHNAPKIN_TOKEN_CURLY_OPEN       // `{`
	TokenCurlyClose      TokenKind = C.FIRTHNAPKIN_TOKEN_CURLY_CLOSE      // `}`
	TokenEllipsis        TokenKind = C.FIRTHNAPKIN_TOKEN_ELLIPSIS         // `...`
	TokenColon           TokenKind = C.FIRTHNAPKIN_TOKEN_COLON            // `:`
	TokenEquals          TokenKind = C.FIRTHNAPKIN_TOKEN_EQUALS           // `=`
	TokenAt              TokenKind = C.FIRTHNAPKIN_TOKEN_AT               // `@`
	TokenPipe            TokenKind = C.FIRTHNAPKIN_TOKEN_PIPE             // `|`
	// tables.toml: end
)

// Token is a token of a source, as the library writes it.
type Token struct {
	Kind       TokenKind
	Quotes     uint32 // how many quotes are on each side of its text: of a string 1, of a block string 3, otherwise 0
	Start, End Position
}

// Text returns the text of a token of this source, as it is written. The end has none.
func (t Token) Text(source string) string {
	return source[t.Start.Byte:t.End.Byte]
}

// Unquoted returns the text of a token of this source without the quotes of a string: escapes and lines are as they are written.
func (t Token) Unquoted(source string) string {
	return source[t.Start.Byte+t.Quotes : t.End.Byte-t.Quotes]
}

// Tokens returns the tokens of a source, the last of which is its end. White space, line ends, commas, comments and byte order
// marks are no tokens. The source may be a document or not. The error is a *SyntaxError at the first position that has no token,
// otherwise one of the Err values.
func Tokens(source string) ([]Token, error) {
	return TokensWithin(source, AnyTokens)
}

// TokensWithin is Tokens with a limit on the number of tokens, the end not counted. The error is at the first token past the limit.
// If the limit is below 0 the error wraps ErrInvalidLimit, and the source isn't read.
func TokensWithin(source string, maxTokens int) ([]Token, error) {
	if maxTokens < 0 {
		return nil, belowZero("maxTokens", maxTokens)
	}
	for capacity := atFirst(source) + 16; ; {
		tokens, length, found := make([]Token, capacity), new(C.size_t), new(C.firthnapkin_error)
		status := C.cut(bytesOf(source), C.size_t(len(source)), word(maxTokens), unsafe.Pointer(&tokens[0]), C.size_t(capacity), length, found)
		runtime.KeepAlive(source)
		switch status {
		case C.FIRTHNAPKIN_OK:
			return tokens[:*length:*length], nil
		case C.FIRTHNAPKIN_BUFFER_TOO_SMALL:
			capacity = int(*length)
		default:
			return nil, errorOf(status, source, found)
		}
	}
}

// The library reads no longer source, so no buffer is made for one.
const longest = 1<<32 - 1

// Canonical returns the canonical text of a source, one for each query whatever its white space and comments: its tokens as they
// are written, with a space between two neighbours of which neither is a punctuator, and before `...` after a token that is no
// punctuator. It is never more than twice as long as the source. The source may be a document or not. The error is a *SyntaxError
// at the first position that has no token, otherwise one of the Err values.
func Canonical(source string) (string, error) {
	if len(source) > longest {
		return "", ErrSourceTooLong
	}
	for capacity := len(source) + 1; ; {
		buffer, length, found := make([]byte, capacity), new(C.size_t), new(C.firthnapkin_error)
		status := C.canonical(bytesOf(source), C.size_t(len(source)), (*C.char)(unsafe.Pointer(&buffer[0])), C.size_t(capacity),
			length, found)
		runtime.KeepAlive(source)
		switch status {
		case C.FIRTHNAPKIN_OK:
			return string(buffer[:*length]), nil
		case C.FIRTHNAPKIN_BUFFER_TOO_SMALL:
			capacity = int(*length)
		default:
			return "", errorOf(status, source, found)
		}
	}
}

// The tokens of a slice are laid out as the library writes them.
var (
	_ = [1]struct{}{}[unsafe.Sizeof(Token{})-C.sizeof_firthnapkin_token]
	_ = [1]struct{}{}[unsafe.Offsetof(Token{}.Quotes)-unsafe.Offsetof(C.firthnapkin_token{}.quotes)]
	_ = [1]struct{}{}[unsafe.Offsetof(Token{}.Start)-unsafe.Offsetof(C.firthnapkin_token{}.start)]
	_ = [1]struct{}{}[unsafe.Offsetof(Token{}.End)-unsafe.Offsetof(C.firthnapkin_token{}.end)]
)

package firthnapkin

import (
	"errors"
	"fmt"
	"strings"
	"syscall"
	"testing"
	"unsafe"
)

func TestTokenKinds(t *testing.T) {
	source := "#é\n{a(b:\"é𝄞\\\"\" c:\"\"\" \n𝄞\"\"\"),...F} -1 0.5 [!$@=:|]"
	tokens, err := Tokens(source)
	if err != nil {
		t.Fatal(err)
	}
	wanted := []struct {
		kind           TokenKind
		text, unquoted string
	}{
		{TokenCurlyOpen, "{", "{"}, {TokenName, "a", "a"}, {TokenParenOpen, "(", "("}, {TokenName, "b", "b"}, {TokenColon, ":", ":"},
		{TokenString, `"é𝄞\""`, `é𝄞\"`}, {TokenName, "c", "c"}, {TokenColon, ":", ":"},
		{TokenBlockString, "\"\"\" \n𝄞\"\"\"", " \n𝄞"}, {TokenParenClose, ")", ")"}, {TokenEllipsis, "...", "..."}, {TokenName, "F", "F"},
		{TokenCurlyClose, "}", "}"}, {TokenInt, "-1", "-1"}, {TokenFloat, "0.5", "0.5"}, {TokenBracketOpen, "[", "["},
		{TokenExclamationMark, "!", "!"}, {TokenDollar, "$", "$"}, {TokenAt, "@", "@"}, {TokenEquals, "=", "="}, {TokenColon, ":", ":"},
		{TokenPipe, "|", "|"}, {TokenBracketClose, "]", "]"}, {TokenEndOfFile, "", ""},
	}
	same(t, "how many", len(tokens), len(wanted))
	for i, it := range tokens {
		same(t, wanted[i].text, []any{it.Kind, it.Text(source), it.Unquoted(source)},
			[]any{wanted[i].kind, wanted[i].text, wanted[i].unquoted})
	}
	same(t, "the block string", []Position{tokens[8].Start, tokens[8].End}, []Position{{17, 1, 14, 22}, {26, 2, 4, 34}})
	same(t, "the end", tokens[23].Start, Position{49, 2, 27, 57})
	beyond := len(tokenKindNames)
	same(t, "names", []string{TokenEndOfFile.String(), TokenExclamationMark.String(), TokenPipe.String(), TokenKind(beyond).String()},
		[]string{"end_of_file", "exclamation_mark", "pipe", fmt.Sprintf("TokenKind(%d)", beyond)})
}

// Numbers of tokens around the capacities that are tried, and large ones.
func TestManyTokens(t *testing.T) {
	for _, count := range []int{0, 1, 15, 16, 17, 18, 100, 5000, 300000} {
		for _, part := range []string{"a ", "!"} {
			tokens, err := Tokens(strings.Repeat(part, count))
			if err != nil {
				t.Fatal(err)
			}
			last := tokens[len(tokens)-1]
			same(t, part, []any{len(tokens), last.Kind, int(last.Start.Byte)}, []any{count + 1, TokenEndOfFile, count * len(part)})
		}
	}
}

func TestNoDocument(t *testing.T) {
	tokens, err := Tokens(") type {")
	same(t, "the tokens of no document", []any{len(tokens), err}, []any{4, nil})
	tokens, err = Tokens(strings.Repeat("{", 100000))
	same(t, "the tokens of a deep text", []any{len(tokens), err}, []any{100001, nil})
}

func TestCanonical(t *testing.T) {
	for source, wanted := range map[string]string{
		"":                             "",
		" # all\n,":                    "",
		"{ a, b(c: \"d\") } # all":     `{a b(c:"d")}`,
		") } type":                     ")}type",
		"a\r\nb\tc":                    "a b c",
		"{a(b: \"é  ,#\" )}":           `{a(b:"é  ,#")}`,
		strings.Repeat(`1a""`, 100000): strings.TrimSpace(strings.Repeat(`1 a "" `, 100000)),
		"\ufeffquery Q ($v : [ T ! ] = 1) { a ... on T { b } ...F }": "query Q($v:[T!]=1){a ...on T{b}...F}",
	} {
		found, err := Canonical(source)
		same(t, source, []any{found, err}, []any{wanted, nil})
	}
}

func TestLexicalErrors(t *testing.T) {
	long := strings.Repeat("a", 5000)
	for source, message := range map[string]string{
		"} é ?":            `Unknown character "é". At 1:3`,
		"a\n01":            `Unexpected character "1". At 2:2`,
		`{{{ "é`:           "Unterminated string literal. At 1:7",
		"# é\n-":           "Unexpected end of input. At 2:2",
		long + ` "\` + "é": "Unknown escape sequence \"\\é\" in string. At 1:5004",
	} {
		_, err := Tokens(source)
		_, other := Canonical(source)
		for _, err := range []error{err, other} {
			var found *SyntaxError
			same(t, source, []any{errors.As(err, &found), err.Error()}, []any{true, message})
			same(t, source, found.Kind, Lexical)
		}
	}
	for _, source := range []string{"\xff", "a \xed\xa0\x80"} {
		_, err := Tokens(source)
		_, other := Canonical(source)
		same(t, source, []error{err, other}, []error{ErrNotUTF8, ErrNotUTF8})
	}
}

func TestLimitedTokens(t *testing.T) {
	source := "{ a(b: \"é\") ...F }"
	whole, _ := Tokens(source)
	for most := range whole {
		found, err := TokensWithin(source, most)
		if most >= len(whole)-1 {
			same(t, "enough tokens", []any{len(found), err}, []any{len(whole), nil})
			continue
		}
		var refusal *SyntaxError
		same(t, "too many tokens", []any{errors.As(err, &refusal), found == nil}, []any{true, true})
		same(t, "where", []any{refusal.Kind, refusal.Message, refusal.Start}, []any{TooManyTokens, "Too many tokens", whole[most].Start})
	}
	for _, most := range []int{AnyTokens, AnyTokens + 1, 1<<63 - 1} {
		found, err := TokensWithin(source, most)
		same(t, "no limit", []any{len(found), err}, []any{len(whole), nil})
	}
	for _, most := range []int{-1, -1 << 63} {
		_, err := TokensWithin("\xff", most)
		same(t, "a limit below 0", errors.Is(err, ErrInvalidLimit), true)
	}
}

// What is too long is not read: no memory backs this one.
func TestTooLongForTokens(t *testing.T) {
	bytes, err := syscall.Mmap(-1, 0, 1<<32, syscall.PROT_READ, syscall.MAP_PRIVATE|syscall.MAP_ANON|syscall.MAP_NORESERVE)
	if err != nil {
		t.Skip("no address space for 4 GiB")
	}
	defer syscall.Munmap(bytes)
	source := *(*string)(unsafe.Pointer(&bytes))
	_, err = Tokens(source)
	_, other := Canonical(source)
	same(t, "4 GiB", []error{err, other}, []error{ErrSourceTooLong, ErrSourceTooLong})
}

package firthnapkin

import (
	"errors"
	"testing"
)

// asSyntaxError returns the *SyntaxError that an error is or wraps, and fails if there is none.
func asSyntaxError(t *testing.T, err error) *SyntaxError {
	t.Helper()
	var found *SyntaxError
	if !errors.As(err, &found) {
		t.Fatalf("no *SyntaxError: %v", err)
	}
	return found
}

// Each *SyntaxError of a named source has the name, and shows it before the line.
func TestNamedErrors(t *testing.T) {
	for source, words := range map[string]struct {
		limits         Limits
		before, behind string
	}{
		"{\n a )":                       {DefaultLimits, `Unexpected ")". At `, "2:4"},
		"{ ?":                           {DefaultLimits, `Unknown character "?". At `, "1:3"},
		"{":                             {DefaultLimits, "Unexpected end of input. At ", "1:2"},
		"{a{b}}":                        {within(1, AnyTokens), "Too deeply nested. At ", "1:3"},
		"{a b}":                         {within(1, 2), "Too many tokens. At ", "1:4"},
		"query Q {a b}":                 {limitedTo("Fields", 1), `Too many fields in operation "Q": 2, with a limit of 1. At `, "1:1"},
		"{...A}":                        {limitedTo("Fields", 1), `Unknown fragment. At `, "1:2"},
		"{...A} fragment A on T {...A}": {limitedTo("Fields", 1), `Fragment spread within itself. At `, "1:25"},
	} {
		for _, name := range []string{"pets.graphql", "a b:c\n\x00%s\xff", "é𝄞"} {
			document, err := ParseNamed(name, source, words.limits)
			same(t, source, document == nil, true)
			for _, err := range []error{err, CheckNamed(name, source, words.limits)} {
				found := asSyntaxError(t, err)
				same(t, source, []any{found.SourceName, found.Error()}, []any{name, words.before + name + ":" + words.behind})
				same(t, "the message has no name", found.Message+". At ", words.before)
			}
		}
		_, err := ParseNamed("", source, words.limits)
		same(t, source, []any{asSyntaxError(t, err).SourceName, err.Error()}, []any{"", words.before + words.behind})
		_, err = ParseWithin(source, words.limits)
		same(t, source, []any{asSyntaxError(t, err).SourceName, err.Error()}, []any{"", words.before + words.behind})
		for _, err := range []error{CheckNamed("", source, words.limits), Check(source, words.limits)} {
			same(t, source, []any{asSyntaxError(t, err).SourceName, err.Error()}, []any{"", words.before + words.behind})
		}
	}
}

// A named document has the name, and so has the error of its complexities.
func TestNamedDocuments(t *testing.T) {
	document, err := ParseNamed("pets.graphql", "query Q { ...A }", DefaultLimits)
	if err != nil {
		t.Fatal(err)
	}
	same(t, "the names", []string{document.SourceName, document.Operations()[0].Name()}, []string{"pets.graphql", "Q"})
	for i := 0; i < 2; i++ {
		_, err = document.Operations()[0].Complexity()
		same(t, "the error of complexities", err.Error(), `Unknown fragment. At pets.graphql:1:11`)
	}
	same(t, "a document without a name", parsed(t, "{ a }").SourceName, "")
	_, err = parsed(t, "{ ...A }").Operations()[0].Complexity()
	same(t, "its error of complexities", err.Error(), `Unknown fragment. At 1:3`)
}

// Other errors have no name, and are those of ParseWithin. A check of a document has none.
func TestOtherNamedErrors(t *testing.T) {
	_, err := ParseNamed("pets.graphql", "\xff", DefaultLimits)
	same(t, "not UTF-8", []error{err, CheckNamed("pets.graphql", "\xff", DefaultLimits)}, []error{ErrNotUTF8, ErrNotUTF8})
	_, err = ParseNamed("pets.graphql", "{a}", within(-1, AnyTokens))
	for _, err := range []error{err, CheckNamed("pets.graphql", "{a}", within(-1, AnyTokens))} {
		same(t, "an invalid limit", []any{errors.Is(err, ErrInvalidLimit), err.Error()},
			[]any{true, "firthnapkin: invalid limit: Depth -1 is not from 0 to 1000"})
	}
	same(t, "a document", CheckNamed("pets.graphql", "{ a }", within(1, 3)), nil)
	_, err = Tokens("{ ?")
	found := asSyntaxError(t, err)
	found.SourceName = "pets.graphql"
	same(t, "a name that is set", err.Error(), `Unknown character "?". At pets.graphql:1:3`)
}

package firthnapkin

import (
	"errors"
	"fmt"
	"reflect"
	"strings"
	"testing"
)

// checkError returns the *SyntaxError of a source.
func checkError(t *testing.T, source string, limits Limits) *SyntaxError {
	t.Helper()
	var found *SyntaxError
	if err := Check(source, limits); !errors.As(err, &found) {
		t.Fatalf("%.40q: %v", source, err)
	}
	return found
}

func TestCheckOfDocuments(t *testing.T) {
	exact := Limits{Depth: 3, Tokens: 75, Fields: 7, Aliases: 5, Directives: 4, RootFields: 4, FieldDepth: 2}
	for _, it := range []struct {
		source string
		limits Limits
	}{
		{"{a}", DefaultLimits}, {"{a}", Limits{1, 3, 1, 0, 0, 1, 1}}, {"# é\n{ a(b: \"𝄞\") { ...F } }", within(2, AnyTokens)},
		{"fragment F on T { ...F }", limitedTo("Fields", 0)}, {two, exact}, {strings.Repeat("{a}", 100), limitedTo("Fields", 1)},
		{strings.Repeat("{a", 1000) + strings.Repeat("}", 1000), within(1000, AnyTokens)}, {"{ ...F }", DefaultLimits},
	} {
		if err := Check(it.source, it.limits); err != nil {
			t.Errorf("%.40q: %v", it.source, err)
		}
	}
	exact.Tokens--
	same(t, "a token less", checkError(t, two, exact).Kind, TooManyTokens)
}

// Each error, with its words and where it begins.
func TestCheckOfOthers(t *testing.T) {
	for _, it := range []struct {
		source       string
		limits       Limits
		kind         ErrorKind
		message      string
		line, column int
	}{
		{"{\n  a )\n}", DefaultLimits, UnexpectedToken, `Unexpected ")"`, 2, 5},
		{"", DefaultLimits, UnexpectedEnd, "Unexpected end of input", 1, 1},
		{"{ é", DefaultLimits, Lexical, `Unknown character "é"`, 1, 3},
		{strings.Repeat("{a", 201), DefaultLimits, TooDeep, "Too deeply nested", 1, 401},
		{"{ a { b } }", within(1, AnyTokens), TooDeep, "Too deeply nested", 1, 5},
		{"{ a b }", within(200, 3), TooManyTokens, "Too many tokens", 1, 7},
		{"{ ...F }", limitedTo("Fields", 9), UnknownFragment, "Unknown fragment", 1, 3},
		{"{ ...F } fragment F on T { ...F }", limitedTo("FieldDepth", 9), FragmentCycle, "Fragment spread within itself", 1, 28},
		{"type A { b: C }", DefaultLimits, UnexpectedToken, `Unexpected "type": this is a schema's definition, not a request's`, 1, 1},
		{"{a}\nquery B { a b }", limitedTo("Fields", 1), OperationTooLarge, `Too many fields in operation "B": 2, with a limit of 1`, 2, 1},
		{strings.Repeat("{a}", 99) + "{a b}", limitedTo("RootFields", 1), OperationTooLarge,
			"Too many root fields in an operation without a name: 2, with a limit of 1", 1, 298},
	} {
		found := checkError(t, it.source, it.limits)
		same(t, it.source, []any{found.Kind, found.Message, found.Line(), found.Column()}, []any{it.kind, it.message, it.line, it.column})
		// All else is that of a parse.
		parsed := syntaxError(t, it.source, it.limits)
		same(t, it.source, []any{*found, found.Error(), found.Excerpt()}, []any{*parsed, parsed.Error(), parsed.Excerpt()})
	}
	same(t, "what is not UTF-8", Check("{ \xff", DefaultLimits), ErrNotUTF8)
}

// Each number is allowed, and one less is not.
func TestCheckOfSizes(t *testing.T) {
	for i, name := range sizeNames {
		numbers := reflect.ValueOf(numbersOfTwo[0])
		if name == "RootFields" {
			numbers = reflect.ValueOf(numbersOfTwo[1])
		}
		number := int(numbers.Field(i).Uint())
		if err := Check(two, limitedTo(name, number)); err != nil {
			t.Errorf("%s: %v", name, err)
		}
		found := checkError(t, two, limitedTo(name, number-1))
		words := fmt.Sprintf(": %d, with a limit of %d", number, number-1)
		same(t, name, []any{found.Kind, strings.HasSuffix(found.Message, words)}, []any{OperationTooLarge, true})
	}
}

func TestCheckOfWrongLimits(t *testing.T) {
	for name, numbers := range map[string][]int{"Depth": {-1, MaxDepth + 1}, "Tokens": {-1}, "Fields": {-1, AnyNumber + 1}, "FieldDepth": {-1 << 63}} {
		for _, number := range numbers {
			if err := Check("\xff", limitedTo(name, number)); !errors.Is(err, ErrInvalidLimit) || !strings.Contains(err.Error(), name) {
				t.Errorf("%s %d: %v", name, number, err)
			}
		}
	}
}

// A check allocates nothing, whatever the source's size, and however many operations there are.
func TestCheckAllocatesNothing(t *testing.T) {
	for _, source := range []string{"{a}", strings.Repeat("{a}", 1000), "{" + strings.Repeat("a ", 100000) + "}"} {
		for _, limits := range []Limits{DefaultLimits, limitedTo("Fields", 1000000)} {
			count := testing.AllocsPerRun(10, func() { Check(source, limits) })
			same(t, fmt.Sprintf("%.9s", source), int(count), 0)
		}
	}
}

func TestGoroutinesAndChecks(t *testing.T) {
	done := make(chan error)
	for i := 0; i < 8; i++ {
		go func() {
			for round := 0; round < 200; round++ {
				if Check(two, DefaultLimits) != nil || Check(two, limitedTo("Fields", 6)) == nil {
					done <- errors.New("another answer")
					return
				}
			}
			done <- nil
		}()
	}
	for i := 0; i < 8; i++ {
		if err := <-done; err != nil {
			t.Error(err)
		}
	}
}

package firthnapkin

import (
	"errors"
	"fmt"
	"reflect"
	"runtime"
	"strings"
	"sync"
	"testing"
)

const two = "query A @d { x: a { y: b c } ...F z: e { ...G @d } }\nfragment F on T @d { g: a { h } }\n" +
	"query B { i: a ...H }\nfragment G on T { j: a @d }\nfragment H on T @d { k: a l: c m }"

var numbersOfTwo = []Complexity{{7, 5, 4, 3, 2}, {4, 3, 1, 4, 1}}

// The fields of Limits that are limits on operations, and what each counts.
var (
	sizeNames = []string{"Fields", "Aliases", "Directives", "RootFields", "FieldDepth"}
	nouns     = []string{"fields", "aliases", "directives", "root fields", "levels of fields"}
)

// counted are sources with the numbers of their operations, counted by hand.
var counted = []struct {
	source string
	wanted []Complexity
}{
	{"{a}", []Complexity{{1, 0, 0, 1, 1}}},
	{"{ a a @skip(if: true) x: b { c } }", []Complexity{{4, 1, 1, 3, 2}}},
	{"query ($v: [Int! ] = [1] @n) @a @b { c: a @d { b ...F @e ... @g { h } } } fragment F on T @f { i: j { k } }", []Complexity{{5, 2, 7, 1, 3}}},
	{"{ ...F ...F @a } fragment F on T @b { c @d }", []Complexity{{2, 0, 5, 2, 1}}},
	{"query A { ...F } fragment F on T { a(b: \"é\") } mutation B { b { ...F } }", []Complexity{{1, 0, 0, 1, 1}, {2, 0, 0, 1, 2}}},
	{"fragment F on T { a }", nil},
	{"{ ...A } fragment A on T { a } fragment A on T { b c }", []Complexity{{1, 0, 0, 1, 1}}},
	{"fragment A on T { ...A ...B } { a }", []Complexity{{1, 0, 0, 1, 1}}},
	{strings.Repeat("{a", 200) + strings.Repeat("}", 200), []Complexity{{200, 0, 0, 1, 200}}},
	{strings.Repeat("{a}", 99) + "{a b}", append(repeated(Complexity{1, 0, 0, 1, 1}, 99), Complexity{2, 0, 0, 2, 1})},
	{two, numbersOfTwo},
}

func repeated(complexity Complexity, count int) (found []Complexity) {
	for i := 0; i < count; i++ {
		found = append(found, complexity)
	}
	return found
}

// doubled returns so many fragments, each a field and twice the next one.
func doubled(count int) string {
	source := "query Large { ...F1 }"
	for i := 1; i < count; i++ {
		source += fmt.Sprintf(" fragment F%d on T { a ...F%d ...F%d }", i, i+1, i+1)
	}
	return source + fmt.Sprintf(" fragment F%d on T { a }", count)
}

// limitedTo returns the default limits with another one on operations.
func limitedTo(name string, limit int) Limits {
	limits := DefaultLimits
	reflect.ValueOf(&limits).Elem().FieldByName(name).SetInt(int64(limit))
	return limits
}

// complexities returns the numbers of a document's operations.
func complexitiesIn(t *testing.T, d *Document) (found []Complexity) {
	t.Helper()
	for _, operation := range d.Operations() {
		complexity, err := operation.Complexity()
		if err != nil {
			t.Fatal(err)
		}
		found = append(found, complexity)
	}
	return found
}

// syntaxError returns the error of a source that has no document within limits.
func syntaxError(t *testing.T, source string, limits Limits) *SyntaxError {
	t.Helper()
	_, err := ParseWithin(source, limits)
	var found *SyntaxError
	if !errors.As(err, &found) {
		t.Fatalf("%.40q: %v", source, err)
	}
	return found
}

// The numbers are the same whether they are found by the parse or later.
func TestComplexities(t *testing.T) {
	for _, it := range counted {
		for _, limits := range []Limits{DefaultLimits, limitedTo("Fields", 1000), limitedTo("FieldDepth", 1000)} {
			d, err := ParseWithin(it.source, limits)
			if err != nil {
				t.Fatalf("%.40q: %v", it.source, err)
			}
			for i := 0; i < 2; i++ {
				same(t, it.source, complexitiesIn(t, d), it.wanted)
			}
			same(t, it.source, complexitiesIn(t, &Document{Source: d.Source, Nodes: d.Nodes}), it.wanted)
		}
	}
	deep, err := ParseWithin(strings.Repeat("{a", 1000)+strings.Repeat("}", 1000), within(1000, AnyTokens))
	same(t, "a deep document", []any{err, complexitiesIn(t, deep)}, []any{nil, []Complexity{{1000, 0, 0, 1, 1000}}})
	for count, fields := range map[int]uint32{1: 1, 31: 1<<31 - 1, 32: 1<<32 - 1, 33: 1<<32 - 1, 65: 1<<32 - 1} {
		same(t, "doublings", complexitiesIn(t, parsed(t, doubled(count))), []Complexity{{fields, 0, 0, fields, 1}})
	}
}

// Numbers that are found are kept: by a parse within limits on them, and by the first call without such limits.
func TestComplexitiesAreKept(t *testing.T) {
	limits := limitedTo("Aliases", 9)
	d, err := ParseWithin(two, limits)
	if err != nil {
		t.Fatal(err)
	}
	later := parsed(t, two)
	same(t, "at first", complexitiesIn(t, later)[1], numbersOfTwo[1])
	// No call finds them in this source.
	d.Source, later.Source = "?", "?"
	same(t, "what is kept", [][]Complexity{complexitiesIn(t, d), complexitiesIn(t, later)}, [][]Complexity{numbersOfTwo, numbersOfTwo})
	// A parse without limits on operations finds nothing, and allocates no numbers.
	first := int(testing.AllocsPerRun(10, func() { ParseWithin(two, limits) }))
	same(t, "allocations of a parse", int(testing.AllocsPerRun(10, func() { Parse(two) })) < first, true)
}

// The number itself is allowed. With a lower limit the first operation beyond it is refused, where it begins.
func TestSizes(t *testing.T) {
	operations := parsed(t, two).Operations()
	for i, name := range sizeNames {
		of := func(complexity Complexity) int { return int(reflect.ValueOf(complexity).Field(i).Uint()) }
		for limit := 0; limit < 9; limit++ {
			which := 0
			for which < 2 && of(numbersOfTwo[which]) <= limit {
				which++
			}
			if which == 2 {
				d, err := ParseWithin(two, limitedTo(name, limit))
				if err != nil {
					t.Fatalf("%s %d: %v", name, limit, err)
				}
				same(t, name, complexitiesIn(t, d), numbersOfTwo)
				continue
			}
			found, node := syntaxError(t, two, limitedTo(name, limit)), operations[which].node()
			words := fmt.Sprintf("Too many %s in operation \"%c\": %d, with a limit of %d", nouns[i], "AB"[which], of(numbersOfTwo[which]), limit)
			same(t, name, []any{found.Kind, found.Message, found.Start, found.End}, []any{OperationTooLarge, words, node.Start, node.End})
			same(t, name, []any{found.Error(), found.Excerpt(), found.Kind.String()},
				[]any{fmt.Sprintf("%s. At %d:%d", words, found.Line(), found.Column()), operations[which].Excerpt(), "operation_too_large"})
		}
	}
}

// The first operation comes before the second one, and its first number before the others.
func TestSeveralSizes(t *testing.T) {
	exact := Limits{200, AnyTokens, 7, 5, 4, 4, 2}
	if _, err := ParseWithin(two, exact); err != nil {
		t.Error(err)
	}
	for _, it := range []struct {
		from, to int
		wanted   string
	}{
		{0, 1, "fields in operation \"A\""}, {1, 3, "aliases in operation \"A\""}, {2, 5, "directives in operation \"A\""},
		{3, 4, "root fields in operation \"B\""}, {3, 5, "levels of fields in operation \"A\""},
	} {
		limits := exact
		for _, name := range sizeNames[it.from:it.to] {
			field := reflect.ValueOf(&limits).Elem().FieldByName(name)
			field.SetInt(field.Int() - 1)
		}
		same(t, "what is too large", strings.HasPrefix(syntaxError(t, two, limits).Message, "Too many "+it.wanted+": "), true)
	}
}

func TestWordsOfSizes(t *testing.T) {
	same(t, "without a name", syntaxError(t, "{ a b }", limitedTo("Fields", 1)).Message,
		"Too many fields in an operation without a name: 2, with a limit of 1")
	for _, length := range []int{1, 100, 159, 160, 161, 5000} {
		name := strings.Repeat("n", length)
		same(t, "a name", syntaxError(t, "query "+name+" { a }", limitedTo("RootFields", 0)).Message,
			fmt.Sprintf("Too many root fields in operation %q: 1, with a limit of 0", name))
	}
	for _, limit := range []int{0, AnyNumber - 1} {
		same(t, "a large number", syntaxError(t, doubled(61), limitedTo("Fields", limit)).Message,
			fmt.Sprintf("Too many fields in operation \"Large\": 4294967295 or more, with a limit of %d", limit))
	}
	// More nodes than there is room for at first.
	many := strings.Repeat("{a}", 300) + "query B{a b}"
	same(t, "many operations", syntaxError(t, many, limitedTo("Fields", 1)).Start.Byte, uint32(900))
}

func TestWrongSizes(t *testing.T) {
	for _, name := range sizeNames {
		for limit, words := range map[int]string{-1: "-1 is below 0", -1 << 63: "-9223372036854775808 is below 0",
			AnyNumber + 1: "4294967296 is above AnyNumber", 1<<63 - 1: "9223372036854775807 is above AnyNumber"} {
			for _, source := range []string{"{a}", "\xff"} {
				_, err := ParseWithin(source, limitedTo(name, limit))
				if !errors.Is(err, ErrInvalidLimit) {
					t.Fatalf("%s %d: %v", name, limit, err)
				}
				same(t, name, err.Error(), "firthnapkin: invalid limit: "+name+" "+words)
			}
		}
	}
}

// A spread that can't be expanded is refused with a limit, and otherwise when a number is asked for, each time.
func TestSpreads(t *testing.T) {
	words := map[ErrorKind]string{UnknownFragment: "Unknown fragment", FragmentCycle: "Fragment spread within itself"}
	for _, it := range []struct {
		source     string
		kind       ErrorKind
		start, end uint32
	}{
		{"{ ...A }", UnknownFragment, 2, 6}, {"{ ...A @b }", UnknownFragment, 2, 9}, {"{ ...A } fragment A on T { ...A }", FragmentCycle, 27, 31},
		{"{ ...A }\nfragment A on T { a(x: \"é\") { ...B @c } }\nfragment B on T { ...A }", FragmentCycle, 69, 73},
		{"{ ...A ...X } fragment A on T { ...Y ...A }", UnknownFragment, 32, 36},
		{"{ ...A ...X } fragment A on T { ...A ...Y }", FragmentCycle, 32, 36},
		{"{ a b c } query B { ...X }", UnknownFragment, 20, 24},
	} {
		var all []error
		for _, operation := range append(parsed(t, it.source).Operations(), parsed(t, it.source).Operations()...) {
			for i := 0; i < 2; i++ {
				_, err := operation.Complexity()
				all = append(all, err)
			}
		}
		for _, name := range sizeNames {
			all = append(all, syntaxError(t, it.source, limitedTo(name, 0)), syntaxError(t, it.source, limitedTo(name, AnyNumber-1)))
		}
		for _, err := range all {
			var found *SyntaxError
			if !errors.As(err, &found) {
				t.Fatalf("%q: %v", it.source, err)
			}
			same(t, it.source, []any{found.Kind, found.Message, found.Start.Index, found.End.Index}, []any{it.kind, words[it.kind], it.start, it.end})
		}
	}
	d, err := ParseWithin("{ a } fragment A on T { ...A ...X }", limitedTo("Fields", 1))
	same(t, "what no operation reaches", []any{err, complexitiesIn(t, d)}, []any{nil, []Complexity{{1, 0, 0, 1, 1}}})
}

// What is no document, or can't be expanded, comes first.
func TestOrderOfSizes(t *testing.T) {
	limits := Limits{1, 6, 1, 9, 9, 9, 9}
	for source, kind := range map[string]ErrorKind{
		"{ a b } {": UnexpectedEnd, "{ a b ?": Lexical, "{ a { b } }": TooDeep, "{ a b c d e }": TooManyTokens, "{...X}": UnknownFragment,
		"{ a b }": OperationTooLarge,
	} {
		same(t, source, syntaxError(t, source, limits).Kind, kind)
	}
}

func TestGoroutinesAndNumbers(t *testing.T) {
	d := parsed(t, strings.Repeat(two, 20))
	var wait sync.WaitGroup
	for i := 0; i < 8; i++ {
		wait.Add(1)
		go func() {
			defer wait.Done()
			for round := 0; round < 20; round++ {
				for k, operation := range d.Operations() {
					if found, err := operation.Complexity(); err != nil || found != numbersOfTwo[k%2] {
						t.Error("another answer")
					}
				}
				runtime.Gosched()
			}
		}()
	}
	wait.Wait()
}

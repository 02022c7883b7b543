package firthnapkin

import (
	"errors"
	"runtime"
	"strings"
	"testing"
)

// literals are the three calls, which return any part.
var literals = map[string]func(string, Limits) (Part, error){
	"ParseValue":      func(source string, limits Limits) (Part, error) { return asPart(ParseValue(source, limits)) },
	"ParseConstValue": func(source string, limits Limits) (Part, error) { return asPart(ParseConstValue(source, limits)) },
	"ParseType":       func(source string, limits Limits) (Part, error) { return asPart(ParseType(source, limits)) },
}

func asPart[P Part](part P, err error) (Part, error) { return part, err }

// errorOfLiteral returns the error of a call that returns no part.
func errorOfLiteral(t *testing.T, name, source string, limits Limits) *SyntaxError {
	t.Helper()
	found, err := literals[name](source, limits)
	same(t, name+" of "+source+" has a document", found.Document() == nil, true)
	var syntax *SyntaxError
	if !errors.As(err, &syntax) {
		t.Fatalf("%s of %q: %v", name, source, err)
	}
	return syntax
}

var constants = []struct {
	source string
	value  any
}{
	{"null", nil},
	{"true", true},
	{"-7", int64(-7)},
	{"99999999999", int64(99999999999)},
	{"1e999", Number("1e999")},
	{"-1.5e3", -1500.0},
	{`"\u00e9\n𝄞"`, "é\n𝄞"},
	{"\"\"\"\n  x\n   y\n \"\"\"", "x\n y"},
	{"on", Enum{"on"}},
	{"[]", []any{}},
	{"{}", map[string]any{}},
	{"[1, [E], null]", []any{int64(1), []any{Enum{"E"}}, nil}},
	{"{a: 1, b: {c: 2.5}, a: 3}", map[string]any{"a": int64(3), "b": map[string]any{"c": 2.5}}},
	{"\ufeff # é\n ,7, #", int64(7)},
}

func TestValuesAlone(t *testing.T) {
	for _, row := range constants {
		for _, call := range []func(string, Limits) (ParsedValue, error){ParseValue, ParseConstValue} {
			found, err := call(row.source, DefaultLimits)
			same(t, row.source, err, nil)
			same(t, row.source, found.Value(), row.value)
			argument, _ := parsed(t, "{a(b:"+row.source+"\n)}").Operations()[0].Selections()[0].(Field).Argument("b")
			same(t, row.source+" in a document", found.Value(), argument.Value())
		}
	}
	found, err := ParseValue("[$a {b: $ c}]", DefaultLimits)
	same(t, "variables", err, nil)
	same(t, "variables", found.Value(), any([]any{Variable{"a"}, map[string]any{"b": Variable{"c"}}}))
}

func TestTypesAlone(t *testing.T) {
	for source, wanted := range map[string]string{
		"T": "T", "ID!": "ID!", "[T]": "[T]", " [ [ T ] , ! ] #é\n!\n": "[[T]!]!", "\ufeffon": "on",
	} {
		found, err := ParseType(source, DefaultLimits)
		same(t, source, err, nil)
		same(t, source, found.Type(), wanted)
	}
}

// Parts of sources alone have places, and a document of their own that has no definitions.
func TestPartsAlone(t *testing.T) {
	source := "# é\n  [\"𝄞\" {a: 1}]"
	value, err := ParseValue(source, DefaultLimits)
	same(t, "its error", err, nil)
	same(t, "its text", value.Text(), "[\"𝄞\" {a: 1}]")
	same(t, "its place", [3]int{value.Index(), value.Line(), value.Column()}, [3]int{0, 2, 3})
	same(t, "its excerpt", value.Excerpt(), "1 | # é\n2 |   [\"𝄞\" {a: 1}]\n  |   ^")
	d := value.Document()
	same(t, "its nodes", len(d.Nodes), 5)
	same(t, "its children", d.Children(0), []int{1, 2})
	same(t, "the end of its last node", d.Nodes[4].End, Position{Index: 16, Line: 1, Column: 12, Byte: 20})
	kind, err := ParseType(" [ T ]", DefaultLimits)
	same(t, "the error of a type", err, nil)
	same(t, "the text of a type", [2]string{kind.Text(), kind.Type()}, [2]string{"[ T ]", "[T]"})
	same(t, "the column of a type", kind.Column(), 2)
	for _, it := range []Part{value, kind} {
		d := it.Document()
		same(t, "its source", strings.HasSuffix(d.Source, it.Text()), true)
		same(t, "definitions", len(d.Definitions())+len(d.Operations())+len(d.Fragments()), 0)
		_, hasOperation := d.Operation("")
		_, hasFragment := d.Fragment("F")
		same(t, "an operation or a fragment", hasOperation || hasFragment, false)
	}
}

func TestErrorsOfPartsAlone(t *testing.T) {
	for _, row := range []struct {
		name, source, message string
		start, end            uint32
	}{
		{"ParseValue", "", "Unexpected end of input", 0, 0},
		{"ParseValue", "1 2", `Unexpected "2"`, 2, 3},
		{"ParseValue", "{a}", `Unexpected "}"`, 2, 3},
		{"ParseValue", "$", "Unexpected end of input", 1, 1},
		{"ParseValue", "query Q { a }", `Unexpected "Q"`, 6, 7},
		{"ParseValue", "[é]", `Unknown character "é"`, 1, 1},
		{"ParseConstValue", "$a", `Unexpected "$"`, 0, 1},
		{"ParseConstValue", "[1, {a: $b}]", `Unexpected "$"`, 8, 9},
		{"ParseType", "T!!", `Unexpected "!"`, 2, 3},
		{"ParseType", "[T", "Unexpected end of input", 2, 2},
		// Nothing is said of schemas or descriptions, since no document is wanted.
		{"ParseType", "{ a }", `Unexpected "{"`, 0, 1},
		{"ParseType", `"d" type T`, `Unexpected ""d""`, 0, 3},
	} {
		found := errorOfLiteral(t, row.name, row.source, DefaultLimits)
		same(t, row.name+" of "+row.source, found.Message, row.message)
		same(t, row.name+" of "+row.source, [2]uint32{found.Start.Byte, found.End.Byte}, [2]uint32{row.start, row.end})
	}
	found := errorOfLiteral(t, "ParseValue", "[\n 1 )]", DefaultLimits)
	same(t, "an excerpt", found.Excerpt(), "1 | [\n2 |  1 )]\n  |    ^")
	same(t, "an error", found.Error(), `Unexpected ")". At 2:4`)
	for name, call := range literals {
		_, err := call("T\xff", DefaultLimits)
		same(t, name, err, ErrNotUTF8)
	}
}

func TestLimitsOfPartsAlone(t *testing.T) {
	for _, row := range []struct {
		name, source  string
		depth, tokens int
	}{
		{"ParseValue", "[{a: $b}]", 2, 8}, {"ParseConstValue", "{a: [1]}", 2, 7}, {"ParseType", "[[T]!]!", 2, 7}, {"ParseType", "T", 0, 1},
	} {
		_, err := literals[row.name](row.source, within(row.depth, row.tokens))
		same(t, row.source, err, nil)
		same(t, row.source, errorOfLiteral(t, row.name, row.source, within(row.depth, row.tokens-1)).Kind, TooManyTokens)
		if row.depth > 0 {
			same(t, row.source, errorOfLiteral(t, row.name, row.source, within(row.depth-1, row.tokens)).Kind, TooDeep)
		}
	}
	for name, call := range literals {
		for _, limits := range []Limits{within(-1, 9), within(MaxDepth+1, 9), within(9, -1), {Fields: -1}} {
			_, err := call("T", limits)
			same(t, name, errors.Is(err, ErrInvalidLimit), true)
		}
		// Those on operations say nothing of a value or a type.
		_, err := call("T", Limits{Depth: 1, Tokens: 1})
		same(t, name, err, nil)
	}
}

// More nodes and texts than are allocated at first, and nesting that needs a stack of its own.
func TestLargePartsAlone(t *testing.T) {
	value, err := ParseValue("["+strings.Repeat("1 ", 10000)+"]", DefaultLimits)
	same(t, "many values", err, nil)
	same(t, "many values", len(value.Value().([]any)), 10000)
	text := strings.Repeat("é", 10000)
	value, err = ParseConstValue(`"`+text+`"`, DefaultLimits)
	same(t, "a long text", err, nil)
	same(t, "a long text", value.Value(), any(text))
	kind, err := ParseType(strings.Repeat("[", 1000)+"T"+strings.Repeat("!]", 1000), within(MaxDepth, AnyTokens))
	same(t, "a deep type", err, nil)
	same(t, "a deep type", len(kind.Type()), 3001)
	runtime.GC()
	same(t, "a long text, later", value.Value(), any(text))
}

package firthnapkin

import (
	"fmt"
	"math"
	"strings"
	"testing"
)

// valueIn returns the value of the only argument of a field.
func valueIn(t *testing.T, text string) any {
	t.Helper()
	d := parsed(t, "query ($v: Int) { a(b: "+text+") }")
	argument, _ := d.Operations()[0].Selections()[0].(Field).Argument("b")
	same(t, "the argument's text", argument.Text(), "b: "+text)
	return argument.Value()
}

func TestGoValues(t *testing.T) {
	nines := strings.Repeat("9", 5000)
	for _, row := range []struct {
		text  string
		value any
	}{
		{"null", nil},
		{"true", true},
		{"false", false},
		{"-7", int64(-7)},
		{"-0", int64(0)},
		{"-2147483648", int64(math.MinInt32)},
		{"2147483648", int64(2147483648)},
		{"9223372036854775807", int64(math.MaxInt64)},
		{"-9223372036854775808", int64(math.MinInt64)},
		{"9223372036854775808", Number("9223372036854775808")},
		{"-9223372036854775809", Number("-9223372036854775809")},
		{nines, Number(nines)},
		{"-1.5", -1.5},
		{"1e3", 1000.0},
		{"0.1", 0.1},
		{"1e-999", 0.0},
		{"1.7976931348623157e308", math.MaxFloat64},
		{"1e999", Number("1e999")},
		{"-1e999", Number("-1e999")},
		{`"\u00e9\n𝄞"`, "é\n𝄞"},
		{`""`, ""},
		{"\"\"\"\n  x\n   y\n \"\"\"", "x\n y"},
		{"E", Enum{"E"}},
		{"$v", Variable{"v"}},
		{"[]", []any{}},
		{"[1, [E], null]", []any{int64(1), []any{Enum{"E"}}, nil}},
		{"{}", map[string]any{}},
		{`{a: {b: [$v]}, c: "E"}`, map[string]any{"a": map[string]any{"b": []any{Variable{"v"}}}, "c": "E"}},
		// Of a key that is there twice, the last value.
		{"{a: 1, b: 2, a: 3}", map[string]any{"a": int64(3), "b": int64(2)}},
		{"{__proto__: 1}", map[string]any{"__proto__": int64(1)}},
	} {
		same(t, row.text, valueIn(t, row.text), row.value)
	}
	same(t, "a negative zero", math.Signbit(valueIn(t, "-0.0").(float64)), true)
}

// An enum is no string, and a variable is neither.
func TestTypesOfTheirOwn(t *testing.T) {
	values := valueIn(t, `["a", a, $v, "$v", "1e999", 1e999]`).([]any)
	for i, value := range values {
		for k, other := range values {
			same(t, fmt.Sprint(value, other), value == other, i == k)
		}
	}
	same(t, "as text", fmt.Sprintln(values...), "a a $v $v 1e999 1e999\n")
}

// The parser refuses half a surrogate pair that is written as an escape.
func TestHalvesOfPairs(t *testing.T) {
	for _, text := range []string{`"\ud800"`, `"\udc00"`, `"\ud800\u0041"`} {
		found := refused(t, "{ a(b: "+text+") }", 9)
		same(t, text, []any{found.Kind, found.Detail}, []any{Lexical, UnknownEscape})
	}
}

func TestDeepValues(t *testing.T) {
	for begin, end := range map[string]string{"[": "]", "{k: ": "}"} {
		source := "{ a(b: " + strings.Repeat(begin, MaxDepth-2) + "1" + strings.Repeat(end, MaxDepth-2) + ") }"
		d, err := ParseWithin(source, within(MaxDepth, AnyTokens))
		if err != nil {
			t.Fatal(err)
		}
		value, levels := d.Operations()[0].Selections()[0].(Field).Arguments()[0].Value(), 0
		for value != any(int64(1)) {
			levels++
			if list, ok := value.([]any); ok {
				value = list[0]
			} else {
				value = value.(map[string]any)["k"]
			}
		}
		same(t, "levels of "+begin, levels, MaxDepth-2)
	}
}

package firthnapkin

import (
	"bufio"
	"encoding/hex"
	"errors"
	"fmt"
	"os"
	"reflect"
	"strings"
	"testing"
)

// parsed returns a source's document, and fails if it has none.
func parsed(t *testing.T, source string) *Document {
	t.Helper()
	document, err := Parse(source)
	if err != nil {
		t.Fatalf("%.40q: %v", source, err)
	}
	return document
}

// refused returns why a source has no document, and fails if it has one.
func refused(t *testing.T, source string, depth int) *SyntaxError {
	t.Helper()
	_, err := ParseWithin(source, within(depth, AnyTokens))
	var found *SyntaxError
	if !errors.As(err, &found) {
		t.Fatalf("%.40q: %v", source, err)
	}
	return found
}

func same(t *testing.T, message string, found, wanted any) {
	t.Helper()
	if !reflect.DeepEqual(found, wanted) {
		t.Errorf("%s: %v, not %v", message, found, wanted)
	}
}

// gqlcheck's words for the kinds that it names otherwise.
var gqlcheckWords = map[Kind]string{
	KindFragmentDefinition: "fragment", KindVariableDefinitions: "variables", KindVariableDefinition: "variable", KindFragmentSpread: "spread",
	KindInlineFragment: "inline", KindVariable: "reference", KindObjectField: "key",
}

// wordOf returns gqlcheck's word for a kind.
func wordOf(kind Kind) string {
	if word, isOther := gqlcheckWords[kind]; isOther {
		return word
	}
	return kind.String()
}

// lines returns what gqlcheck writes for a source.
func lines(source string) string {
	document, err := Parse(source)
	if errors.Is(err, ErrNotUTF8) {
		return "Not UTF-8"
	}
	var found *SyntaxError
	if errors.As(err, &found) {
		// gqlcheck counts from 0, and says nothing of schemas and of descriptions.
		message := strings.TrimSuffix(strings.TrimSuffix(found.Message, schemaWords), descriptionWords)
		return fmt.Sprintf("%s. At %d:%d", message, found.Start.Line, found.Start.Column)
	}
	if err != nil {
		return err.Error()
	}
	var written []string
	for i, node := range document.Nodes {
		line := fmt.Sprintf("%s %d %d", wordOf(node.Kind), node.Start.Index, node.End.Index)
		switch node.Kind {
		case KindInt, KindLargeInt, KindFloat, KindString, KindBlockString, KindBoolean:
			line = fmt.Sprintf("scalar %d %d", node.Start.Index, node.End.Index)
		case KindNull:
		case KindType:
			line += " " + document.Meaning(i)
		case KindFragmentDefinition:
			line += " " + document.Name(i) + " " + document.Meaning(i)
		default:
			if name := document.Name(i); name != "" {
				line += " " + name
			}
		}
		written = append(written, line)
	}
	return strings.Join(written, "\n")
}

// The rows of the language: tests/rows.py writes them to the file that FIRTHNAPKIN_ROWS names.
func TestRows(t *testing.T) {
	path := os.Getenv("FIRTHNAPKIN_ROWS")
	if path == "" {
		t.Skip("FIRTHNAPKIN_ROWS names no file of rows")
	}
	file, err := os.Open(path)
	if err != nil {
		t.Fatal(err)
	}
	defer file.Close()
	count, scanner := 0, bufio.NewScanner(file)
	scanner.Buffer(nil, 1<<26)
	for scanner.Scan() {
		var text [2]string
		for i, word := range strings.Fields(scanner.Text()) {
			bytes, err := hex.DecodeString(strings.Trim(word, "-"))
			if err != nil {
				t.Fatal(err)
			}
			text[i] = string(bytes)
		}
		same(t, fmt.Sprintf("%q", text[0]), lines(text[0]), text[1])
		count++
	}
	if count < 1500 {
		t.Errorf("%d rows", count)
	}
}

func TestValues(t *testing.T) {
	for _, row := range []struct {
		text, meaning string
		kind          Kind
		value         int64
	}{
		{"-7", "", KindInt, -7},
		{"-0", "", KindInt, 0},
		{"-2147483648", "", KindInt, -2147483648},
		{"2147483647", "", KindInt, 2147483647},
		{"-2147483649", "", KindLargeInt, 0},
		{"2147483648", "", KindLargeInt, 0},
		{strings.Repeat("9", 5000), "", KindLargeInt, 0},
		{"-1.5", "", KindFloat, 0},
		{"1e400", "", KindFloat, 0},
		{"true", "", KindBoolean, 1},
		{"false", "", KindBoolean, 0},
		{"null", "", KindNull, 0},
		{`"\u00e9\n"`, "é\n", KindString, -1},
		{`""`, "", KindString, -1},
		{"\"\"\"\n  x\n \"\"\"", "x", KindBlockString, -1},
	} {
		d := parsed(t, "{ a(b: "+row.text+") }")
		node := d.Nodes[4]
		same(t, row.text, []any{node.Kind, d.Meaning(4), d.Text(4), d.Name(4)}, []any{row.kind, row.meaning, row.text, row.text})
		if row.value >= 0 || row.kind == KindInt {
			same(t, row.text, node.Value, row.value)
		}
	}
}

func TestDocument(t *testing.T) {
	d := parsed(t, "query Q($v: [T ! ]) { x: a(b: $v) { c } ...F }\n# é𝄞\nfragment F on T { d(e: \"é𝄞\") }")
	same(t, "definitions", d.Definitions(), []int{0, 11})
	same(t, "children of the query", d.Children(0), []int{1, 4, 10})
	same(t, "children of the field", d.Children(4), []int{5, 6, 9})
	same(t, "the variable", []any{d.Nodes[2].Kind, d.Name(2), d.Text(2)}, []any{KindVariableDefinition, "v", "$v"})
	same(t, "the type", []any{d.Nodes[3].Kind, d.Meaning(3), d.Text(3)}, []any{KindType, "[T!]", "[T ! ]"})
	same(t, "the fragment", []any{d.Nodes[11].Kind, d.Name(11), d.Meaning(11)}, []any{KindFragmentDefinition, "F", "T"})
	last := len(d.Nodes) - 1
	same(t, "the string", []any{d.Text(last), d.Meaning(last)}, []any{`"é𝄞"`, "é𝄞"})
	same(t, "its start", d.Nodes[last].Start, Position{75, 2, 23, 79})
	same(t, "its end", d.Nodes[last].End, Position{79, 2, 27, 87})
	beyond := len(kindNames)
	same(t, "a kind's word", []string{KindQuery.String(), KindObjectField.String(), KindBoolean.String(), Kind(beyond).String()},
		[]string{"query", "object_field", "boolean", fmt.Sprintf("Kind(%d)", beyond)})
	same(t, "the words of errors", []string{UnexpectedToken.String(), TooManyTokens.String(), ErrorKind(8).String(),
		UnknownEscape.String(), UnexpectedEndInToken.String(), ErrorDetail(9).String()},
		[]string{"unexpected_token", "too_many_tokens", "ErrorKind(8)", "unknown_escape", "unexpected_end_in_token", "ErrorDetail(9)"})
	same(t, "the version", Version != "", true)
}

func TestSyntaxErrors(t *testing.T) {
	for _, row := range []struct {
		source     string
		kind       ErrorKind
		detail     ErrorDetail
		character  rune
		start, end Position
		message    string
	}{
		{"{\n  a )\n}", UnexpectedToken, NoDetail, 0, Position{6, 1, 4, 6}, Position{7, 1, 5, 7}, `Unexpected ")". At 2:5`},
		{"", UnexpectedEnd, NoDetail, 0, Position{}, Position{}, "Unexpected end of input. At 1:1"},
		{"#é\n{ a", UnexpectedEnd, NoDetail, 0, Position{6, 1, 3, 7}, Position{6, 1, 3, 7}, "Unexpected end of input. At 2:4"},
		{"{ é }", Lexical, UnknownCharacter, 'é', Position{2, 0, 2, 2}, Position{2, 0, 2, 2}, `Unknown character "é". At 1:3`},
		{"{ .a }", Lexical, UnexpectedCharacter, '.', Position{2, 0, 2, 2}, Position{2, 0, 2, 2}, `Unexpected character ".". At 1:3`},
		{`{a(b:"c`, Lexical, UnterminatedString, 0, Position{7, 0, 7, 7}, Position{7, 0, 7, 7}, "Unterminated string literal. At 1:8"},
		{"{a(b:\"\x00\")}", Lexical, UnknownCharacterInString, 0, Position{6, 0, 6, 6}, Position{6, 0, 6, 6},
			"Unknown character \"\x00\" in string literal. At 1:7"},
		{`{a(b:"\q")}`, Lexical, UnknownEscape, 0, Position{7, 0, 7, 7}, Position{7, 0, 7, 7},
			`Unknown escape sequence "\q" in string. At 1:8`},
		{"{a(b:-", Lexical, UnexpectedEndInToken, 0, Position{6, 0, 6, 6}, Position{6, 0, 6, 6}, "Unexpected end of input. At 1:7"},
		{strings.Repeat("{a", 201), TooDeep, NoDetail, 0, Position{400, 0, 400, 400}, Position{401, 0, 401, 401},
			"Too deeply nested. At 1:401"},
		// A token may be written like the end of a message.
		{`{ "a. At b" }`, UnexpectedToken, NoDetail, 0, Position{2, 0, 2, 2}, Position{11, 0, 11, 11}, `Unexpected ""a. At b"". At 1:3`},
		{`{ "a. At 1:1" }`, UnexpectedToken, NoDetail, 0, Position{2, 0, 2, 2}, Position{13, 0, 13, 13},
			`Unexpected ""a. At 1:1"". At 1:3`},
		// Characters of two, three and four bytes.
		{"{ ж }", Lexical, UnknownCharacter, 'ж', Position{2, 0, 2, 2}, Position{2, 0, 2, 2}, `Unknown character "ж". At 1:3`},
		{"{ \uffff }", Lexical, UnknownCharacter, '\uffff', Position{2, 0, 2, 2}, Position{2, 0, 2, 2}, "Unknown character \"\uffff\". At 1:3"},
		{"{𝄞", Lexical, UnknownCharacter, '𝄞', Position{1, 0, 1, 1}, Position{1, 0, 1, 1}, `Unknown character "𝄞". At 1:2`},
		{"{a(b:-\U0010ffff", Lexical, UnexpectedCharacter, '\U0010ffff', Position{6, 0, 6, 6}, Position{6, 0, 6, 6},
			"Unexpected character \"\U0010ffff\". At 1:7"},
		// Indexes, lines, columns and bytes that 16 bits don't hold.
		{"#é" + strings.Repeat("\n", 70000) + strings.Repeat(" ", 70001) + ")", UnexpectedToken, NoDetail, 0,
			Position{140003, 70000, 70001, 140004}, Position{140004, 70000, 70002, 140005}, `Unexpected ")". At 70001:70002`},
	} {
		found := refused(t, row.source, DefaultLimits.Depth)
		message := row.message[:strings.LastIndex(row.message, ". At ")]
		same(t, row.source, *found, SyntaxError{message, row.kind, row.detail, row.character, row.start, row.end, "", row.source})
		same(t, row.source, found.Error(), row.message)
		same(t, row.source, fmt.Sprintf("%s. At %d:%d", message, found.Line(), found.Column()), row.message)
	}
	for _, length := range []int{1, 200, 242, 243, 244, 255, 256, 257, 5000} {
		name := strings.Repeat("n", length)
		same(t, "a long name", refused(t, "query a "+name, 9).Error(), `Unexpected "`+name+`". At 1:9`)
	}
}

func TestSources(t *testing.T) {
	for _, source := range []string{"\xff{", "{a}\xc3", "\xed\xa0\x80", "{a(b:\"\xed\xb0\x80\")}"} {
		if _, err := Parse(source); !errors.Is(err, ErrNotUTF8) {
			t.Errorf("%q: %v", source, err)
		}
	}
	for _, source := range []string{"", "\x00", "{a\x00}", "\ufeff", "{}", "#", `"`, `"""`, "\U0010ffff"} {
		refused(t, source, DefaultLimits.Depth)
	}
	large := parsed(t, "{"+strings.Repeat(strings.Repeat("a", 63)+" ", 1<<20)+"}")
	same(t, "nodes of 64 MB", len(large.Nodes), 1<<20+1)
	same(t, "the end of 64 MB", int(large.Nodes[0].End.Byte), 1<<26+2)
	same(t, "the error of 64 MB", int(refused(t, "{"+strings.Repeat("a", 1<<26), 9).Start.Byte), 1<<26+1)
	strs := parsed(t, "{a(b:["+strings.Repeat(`"\n0123456789" `, 5000)+"])}")
	same(t, "the last of many strings", strs.Meaning(len(strs.Nodes)-1), "\n0123456789")
}

func TestStatuses(t *testing.T) {
	named := []error{errorOf(2, "", nil), errorOf(3, "", nil), errorOf(7, "", nil), errorOf(8, "", nil)}
	same(t, "the errors of statuses", named, []error{ErrNotUTF8, ErrOutOfMemory, ErrSourceTooLong, ErrInvalidLimit})
	others := []error{errorOf(0, "", nil), errorOf(6, "", nil), errorOf(9, "", nil), errorOf(12, "", nil)}
	for i, name := range []string{"ok", "buffer_too_small", "invalid_error", "unknown"} {
		same(t, "the error of another", others[i].Error(), "firthnapkin: the parser returned "+name)
	}
	all := append(named, others...)
	all = append(all, refused(t, "{", 9), refused(t, "{", 9))
	for i, one := range all {
		for k, other := range all {
			same(t, fmt.Sprint(one, " is ", other), errors.Is(one, other), i == k)
		}
	}
	for err, message := range map[error]string{
		ErrNotUTF8:       "the source is not UTF-8",
		ErrOutOfMemory:   "memory ran out",
		ErrSourceTooLong: "the source has 4 GiB or more",
		ErrInvalidLimit:  "invalid limit",
	} {
		same(t, "the words of an error", err.Error(), "firthnapkin: "+message)
	}
}

func ExampleParse() {
	document, err := Parse("{ user(id: 4) { name } }")
	if err != nil {
		fmt.Println(err)
		return
	}
	for i, node := range document.Nodes {
		fmt.Printf("%v %q\n", node.Kind, document.Name(i))
	}
	_, err = Parse("{ user( }")
	fmt.Println(err)
	// Output:
	// query ""
	// field "user"
	// arguments ""
	// argument "id"
	// int "4"
	// field "name"
	// Unexpected "}". At 1:9
}

func BenchmarkParse(b *testing.B) {
	for _, count := range []int{1, 20, 200, 2000} {
		source := "query Q($id: ID!) {\n" + strings.Repeat("  user(id: $id, first: 10) {\n    id\n    name\n  }\n", count) + "}\n"
		b.Run(fmt.Sprint(len(source)), func(b *testing.B) {
			b.SetBytes(int64(len(source)))
			for i := 0; i < b.N; i++ {
				if _, err := Parse(source); err != nil {
					b.Fatal(err)
				}
			}
		})
	}
}

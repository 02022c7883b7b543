package firthnapkin

import (
	"strings"
	"testing"
)

const (
	ofSchema      = ": this is a schema's definition, not a request's"
	ofDescription = ": a description before a request isn't in the specification of October 2021"
)

// What may be before a definition: nothing, a comment, and documents, the last as deep as any may be.
var beforeDefinitions = []string{"", "# é\n", "{ a } ", "fragment F on T { a }", strings.Repeat("{a", MaxDepth) + strings.Repeat("}", MaxDepth)}

// expectMessage fails unless a source is refused at a byte with a message.
func expectMessage(t *testing.T, source string, byteIndex int, message string) {
	t.Helper()
	if found := refused(t, source, MaxDepth); found.Message != message || int(found.Start.Byte) != byteIndex {
		t.Errorf("%.60q: %q at %d, not %q at %d", source, found.Message, found.Start.Byte, message, byteIndex)
	}
}

// The first token of a schema's definition, or of its description, is an error that says so.
func TestSchemas(t *testing.T) {
	for _, word := range strings.Fields("type schema extend directive scalar interface union enum input") {
		for _, before := range beforeDefinitions {
			expectMessage(t, before+word+" A { b: C }", len(before), `Unexpected "`+word+`"`+ofSchema)
			expectMessage(t, before+`"text" `+word+" A { b: C }", len(before), `Unexpected ""text""`+ofSchema)
		}
	}
	_, err := ParseWithin("type A", within(5, 0))
	same(t, "a token too many", err.(*SyntaxError).Message, "Too many tokens")
	parsed(t, "{ type { schema(input: enum) } } query type { extend } fragment enum on union { scalar }")
}

// A description before an operation or a fragment is an error that says so.
func TestDescriptions(t *testing.T) {
	for _, begin := range []string{"query Q { a }", "query{a}", "mutation($b: C) { a }", "subscription { a }", "{ a }", "{", "fragment F on T { a }", "query )"} {
		for _, before := range beforeDefinitions {
			expectMessage(t, before+`"text" `+begin, len(before), `Unexpected ""text""`+ofDescription)
		}
	}
	for _, description := range []string{`"text"`, `""`, `"query é"`, `"""text"""`, "\"\"\"\n query\n\"\"\"", `""""""`} {
		for _, separator := range []string{"", " ", "\n", ",", "\ufeff", "#, type query\n\t", " # é\n,, # {\r\n"} {
			begin := description + separator
			expectMessage(t, "{ a }"+begin+"query Q { a }", len("{ a }"), `Unexpected "`+description+`"`+ofDescription)
			expectMessage(t, begin+"union U = A", 0, `Unexpected "`+description+`"`+ofSchema)
		}
	}
}

// Nothing is said of another unexpected token, and of a description of anything else.
func TestOtherTokens(t *testing.T) {
	for source, before := range map[string]string{
		"query type type { a }":       "query type ",
		"query Q query { a }":         "query Q ",
		"{ a } b":                     "{ a } ",
		"{ a } } query":               "{ a } ",
		"{ a(b: ) type }":             "{ a(b: ",
		"{ a(b: ) query }":            "{ a(b: ",
		`{ a "b" }`:                   "{ a ",
		`{ a "b" query }`:             "{ a ",
		`query ($a: "b") { a }`:       "query ($a: ",
		`query ("b" $query: C) { a }`: "query (",
		`"b"`:                         "",
		`{ a } "b" # query`:           "{ a } ",
		`"b" A { b: C }`:              "",
		`"b" "c" query Q { a }`:       "",
		`"b" "query" { a }`:           "",
		`"b" } query { a }`:           "",
		`"b" """c""" type A { b: C }`: "",
		`"b" queries Q { a }`:         "",
		`"b" Query { a }`:             "",
		`"b" on { a }`:                "",
		`{ a } "b" ) query { a }`:     "{ a } ",
	} {
		tokens, err := Tokens(source[len(before):])
		if err != nil {
			t.Fatal(err)
		}
		expectMessage(t, source, len(before), `Unexpected "`+tokens[0].Text(source[len(before):])+`"`)
	}
}

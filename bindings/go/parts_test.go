package firthnapkin

import (
	"fmt"
	"strings"
	"testing"
)

const petStore = `query Pets($first: Int! = 10 @show(as: "limit"), $tags: [ String ! ]) @live @cached(for: 5) {
  cats: pets(first: $first, tags: $tags) @include(if: true) { name ...Owner @defer }
  ... on Cat @skip(if: false) { lives }
  ... { id }
}
mutation { feed }
subscription Births { birth }
fragment Owner on Person @private { email }`

// texts returns the texts of parts.
func texts[P Part](parts []P) []string {
	var found []string
	for _, it := range parts {
		found = append(found, it.Text())
	}
	return found
}

func TestOperations(t *testing.T) {
	d := parsed(t, petStore)
	var kinds []Kind
	var names []string
	for _, it := range d.Operations() {
		kinds, names = append(kinds, it.Kind()), append(names, it.Name())
	}
	same(t, "kinds", kinds, []Kind{KindQuery, KindMutation, KindSubscription})
	same(t, "names", names, []string{"Pets", "", "Births"})
	pets := d.Operations()[0]
	same(t, "variables", texts(pets.Variables()), []string{`$first: Int! = 10 @show(as: "limit")`, "$tags: [ String ! ]"})
	same(t, "directives", texts(pets.Directives()), []string{"@live", "@cached(for: 5)"})
	same(t, "selections", len(pets.Selections()), 3)
	same(t, "no variables", len(d.Operations()[1].Variables()), 0)
	same(t, "the query's text", pets.Text(), petStore[:strings.Index(petStore, "\nmutation")])
}

func TestOperationByName(t *testing.T) {
	d := parsed(t, "query A { a } query B { b } query A { c }")
	for name, text := range map[string]string{"A": "query A { a }", "B": "query B { b }"} {
		operation, ok := d.Operation(name)
		same(t, name, []any{ok, operation.Text()}, []any{true, text})
	}
	for _, name := range []string{"", "C", "a"} {
		_, ok := d.Operation(name)
		same(t, "the operation "+name, ok, false)
	}
	for _, source := range []string{"query A { a }", "{ a }", "{ a } fragment F on T { b }"} {
		operation, ok := parsed(t, source).Operation("")
		same(t, source, []any{ok, operation.Index()}, []any{true, 0})
	}
	_, ok := parsed(t, "fragment F on T { b }").Operation("")
	same(t, "the only operation of a document of fragments", ok, false)
}

func TestFragments(t *testing.T) {
	d := parsed(t, petStore)
	owner, ok := d.Fragment("Owner")
	same(t, "a fragment", []any{ok, owner.Name(), owner.TypeCondition(), texts(owner.Directives()), texts(owner.Selections())},
		[]any{true, "Owner", "Person", []string{"@private"}, []string{"email"}})
	same(t, "all fragments", texts(d.Fragments()), []string{owner.Text()})
	_, ok = d.Fragment("Pets")
	same(t, "the fragment of an operation's name", ok, false)
	// The first of two of a name, and both in the list.
	doubled := parsed(t, "fragment F on A { a } fragment F on B { b }")
	first, _ := doubled.Fragment("F")
	same(t, "doubled fragments", []any{first.TypeCondition(), len(doubled.Fragments())}, []any{"A", 2})
}

func TestSelections(t *testing.T) {
	d := parsed(t, petStore)
	pets, _ := d.Operation("Pets")
	cats := pets.Selections()[0].(Field)
	same(t, "a field", []any{cats.Alias(), cats.Name(), cats.ResponseKey(), texts(cats.Arguments()), texts(cats.Directives())},
		[]any{"cats", "pets", "cats", []string{"first: $first", "tags: $tags"}, []string{"@include(if: true)"}})
	name := cats.Selections()[0].(Field)
	same(t, "a field alone", []any{name.Alias(), name.Name(), name.ResponseKey(), len(name.Arguments()), len(name.Selections())},
		[]any{"", "name", "name", 0, 0})
	spread := cats.Selections()[1].(FragmentSpread)
	same(t, "a spread", []any{spread.Name(), texts(spread.Directives())}, []any{"Owner", []string{"@defer"}})
	onCat := pets.Selections()[1].(InlineFragment)
	same(t, "an inline fragment", []any{onCat.TypeCondition(), texts(onCat.Directives()), texts(onCat.Selections())},
		[]any{"Cat", []string{"@skip(if: false)"}, []string{"lives"}})
	bare := pets.Selections()[2].(InlineFragment)
	same(t, "one without a type", []any{bare.TypeCondition(), texts(bare.Selections())}, []any{"", []string{"id"}})
	same(t, "their directives", texts(pets.Selections()[1].Directives()), []string{"@skip(if: false)"})
	doc := parsed(t, petStore)
	same(t, "a part of another document", cats.Document() == doc, false)
	same(t, "a part of the document", []any{cats.Document() == d, d.Nodes[cats.Index()].Kind}, []any{true, KindField})
}

func TestVariableDefinitions(t *testing.T) {
	d := parsed(t, `query ($a: [T ! ] ! = [1, null] @d(x: 1), $b: Int, $c: Int = null @e, $d: Int @f(y: 2)) { a }`)
	for i, row := range []struct {
		name, of     string
		defaultValue any
		hasDefault   bool
		directives   []string
	}{
		{"a", "[T!]!", []any{int64(1), nil}, true, []string{"@d(x: 1)"}},
		{"b", "Int", nil, false, nil},
		{"c", "Int", nil, true, []string{"@e"}},
		{"d", "Int", nil, false, []string{"@f(y: 2)"}},
	} {
		it := d.Operations()[0].Variables()[i]
		value, ok := it.DefaultValue()
		same(t, "the variable "+row.name, []any{it.Name(), it.Type(), value, ok, texts(it.Directives())},
			[]any{row.name, row.of, row.defaultValue, row.hasDefault, row.directives})
	}
	same(t, "texts", texts(d.Operations()[0].Variables()),
		[]string{"$a: [T ! ] ! = [1, null] @d(x: 1)", "$b: Int", "$c: Int = null @e", "$d: Int @f(y: 2)"})
}

func TestArguments(t *testing.T) {
	d := parsed(t, `{ f(a: 1, b: {c: [2]} , a: 3) @g(h: "i", h: E) }`)
	field := d.Operations()[0].Selections()[0].(Field)
	a, ok := field.Argument("a")
	same(t, "the first of a doubled argument", []any{ok, a.Name(), a.Value(), a.Text()}, []any{true, "a", int64(1), "a: 1"})
	same(t, "all arguments", texts(field.Arguments()), []string{"a: 1", "b: {c: [2]}", "a: 3"})
	_, ok = field.Argument("c")
	same(t, "the argument of a key", ok, false)
	directive := field.Directives()[0]
	h, ok := directive.Argument("h")
	same(t, "a directive", []any{directive.Name(), ok, h.Value(), texts(directive.Arguments())},
		[]any{"g", true, "i", []string{`h: "i"`, "h: E"}})
	_, ok = directive.Argument("i")
	same(t, "an argument that isn't there", ok, false)
	none, ok := parsed(t, "{ a @b }").Operations()[0].Selections()[0].(Field).Directives()[0].Argument("c")
	same(t, "an argument of none", []any{ok, none}, []any{false, Argument{}})
}

// Lines and columns are counted from 1, columns in characters.
func TestPlaces(t *testing.T) {
	d := parsed(t, "# é𝄞\nquery Q($v: Int) {\n  a(b: \"é𝄞\", c: 1) @d\n}")
	operation := d.Operations()[0]
	field := operation.Selections()[0].(Field)
	for _, row := range []struct {
		part         Part
		line, column int
	}{
		{operation, 2, 1}, {operation.Variables()[0], 2, 9}, {field, 3, 3}, {field.Arguments()[0], 3, 5},
		{field.Arguments()[1], 3, 14}, {field.Directives()[0], 3, 20},
	} {
		same(t, row.part.Text(), []int{row.part.Line(), row.part.Column()}, []int{row.line, row.column})
		before := d.Source[:d.Nodes[row.part.Index()].Start.Byte]
		same(t, row.part.Text(), strings.HasPrefix(d.Source[len(before):], row.part.Text()), true)
	}
	same(t, "the excerpt of an argument", field.Arguments()[1].Excerpt(),
		"2 | query Q($v: Int) {\n3 |   a(b: \"é𝄞\", c: 1) @d\n  |              ^\n4 | }")
}

func TestExcerpts(t *testing.T) {
	for source, wanted := range map[string]string{
		"{\n  a )\n}":            "1 | {\n2 |   a )\n  |     ^\n3 | }",
		"{ a ? }":                "1 | { a ? }\n  |     ^",
		"\n\n\n\n\n\n\n\n{\r\n)": " 9 | {\n10 | )\n   | ^",
	} {
		same(t, source, refused(t, source, 9).Excerpt(), wanted)
	}
	_, err := ParseWithin("{ a }", within(5, 1))
	same(t, "the excerpt of a token too many", err.(*SyntaxError).Excerpt(), "1 | { a }\n  |   ^")
	// Of a long line 80 characters are shown.
	long := strings.Repeat("a ", 5000)
	same(t, "a long line", refused(t, "{"+long+")", 9).Excerpt(),
		"1 | "+(strings.Repeat("a ", 20)+")")+"\n  | "+strings.Repeat(" ", 40)+"^")
	same(t, "an error that no call returned", []string{(&SyntaxError{}).Excerpt(), (&SyntaxError{Start: Position{Byte: 5}}).Excerpt()},
		[]string{"1 |\n  | ^", ""})
}

func TestManyParts(t *testing.T) {
	d := parsed(t, "{"+strings.Repeat("a(b: 1) ", 100000)+"}")
	selections := d.Operations()[0].Selections()
	same(t, "selections", len(selections), 100000)
	last := selections[99999].(Field)
	argument, ok := last.Argument("b")
	same(t, "the last", []any{ok, argument.Value(), argument.Column()}, []any{true, int64(1), 1 + 8*99999 + 3})
}

func ExampleDocument_Operation() {
	document, err := Parse("query Q { user(id: 4) { name } }")
	if err != nil {
		fmt.Println(err)
		return
	}
	operation, _ := document.Operation("Q")
	user := operation.Selections()[0].(Field)
	id, _ := user.Argument("id")
	fmt.Println(user.ResponseKey(), id.Value(), id.Line(), id.Column())
	// Output:
	// user 4 1 16
}

func ExampleSyntaxError_Excerpt() {
	_, err := Parse("{\n  user( }")
	if found, ok := err.(*SyntaxError); ok {
		fmt.Println(found)
		fmt.Println(found.Excerpt())
	}
	// Output:
	// Unexpected "}". At 2:9
	// 1 | {
	// 2 |   user( }
	//   |         ^
}

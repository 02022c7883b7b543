// Writes what Go's package exposes of each text of a corpus, as tests/c/dump.c does of the library.
//
//	dump CORPUS
package main

import (
	"bufio"
	"fmt"
	"math"
	"os"
	"sort"
	"strings"

	firthnapkin "firthnapkin.example/go"
)

// object is a JSON object: its keys, and a value after each.
type object []any

var letters = map[rune]string{'"': `\"`, '\\': `\\`, '\b': `\b`, '\f': `\f`, '\n': `\n`, '\r': `\r`, '\t': `\t`}

// quoted returns a text as JSON: encoding/json has other escapes.
func quoted(text string) string {
	var b strings.Builder
	for _, r := range text {
		switch letter := letters[r]; {
		case letter != "":
			b.WriteString(letter)
		case r < 0x20:
			fmt.Fprintf(&b, `\u%04x`, r)
		default:
			b.WriteRune(r)
		}
	}
	return `"` + b.String() + `"`
}

// written returns a value as JSON.
func written(value any) string {
	switch it := value.(type) {
	case nil:
		return "null"
	case string:
		return quoted(it)
	case object:
		parts := make([]string, 0, len(it)/2)
		for i := 0; i < len(it); i += 2 {
			parts = append(parts, quoted(it[i].(string))+":"+written(it[i+1]))
		}
		return "{" + strings.Join(parts, ",") + "}"
	case []any:
		parts := make([]string, len(it))
		for i, item := range it {
			parts[i] = written(item)
		}
		return "[" + strings.Join(parts, ",") + "]"
	default:
		return fmt.Sprint(it)
	}
}

func each[T any](items []T, make func(T) any) []any {
	found := []any{}
	for _, it := range items {
		found = append(found, make(it))
	}
	return found
}

func orNull(text string) any {
	if text == "" {
		return nil
	}
	return text
}

func position(p firthnapkin.Position) []any { return []any{p.Index, p.Line, p.Column, p.Byte} }

func errorOf(err error) any {
	e, ok := err.(*firthnapkin.SyntaxError)
	if !ok {
		panic(err)
	}
	var detail any
	if e.Detail != firthnapkin.NoDetail {
		detail = e.Detail.String()
	}
	return object{"kind", e.Kind.String(), "detail", detail, "character", int(e.Character), "message", e.Message,
		"start", position(e.Start), "end", position(e.End), "line", e.Line(), "column", e.Column(), "excerpt", e.Excerpt()}
}

// Of a source of more bytes than long parts have no excerpts, and the last tokens and nodes are written.
const long, last = 10_000, 100

func lastOf[T any](items []T, text string) []T {
	if len(text) > long && len(items) > last {
		return items[len(items)-last:]
	}
	return items
}

func tokensOf(text string) any {
	tokens, err := firthnapkin.Tokens(text)
	if err != nil {
		return errorOf(err)
	}
	return each(lastOf(tokens, text), func(t firthnapkin.Token) any {
		// It has no line and column of its own.
		line, column := t.Start.Line+1, t.Start.Column+1
		return []any{t.Kind.String(), position(t.Start), position(t.End), line, column, t.Text(text), t.Unquoted(text)}
	})
}

func canonicalOf(text string) any {
	canonical, err := firthnapkin.Canonical(text)
	if err != nil {
		return errorOf(err)
	}
	return canonical
}

func nodeOf(d *firthnapkin.Document, i int) any {
	node := d.Nodes[i]
	var meaning any
	name := orNull(d.Name(i))
	switch node.Kind {
	case firthnapkin.KindInt:
		meaning = node.Value
	case firthnapkin.KindBoolean:
		meaning = node.Value == 1
	case firthnapkin.KindString, firthnapkin.KindBlockString, firthnapkin.KindType, firthnapkin.KindFragmentDefinition:
		meaning = d.Meaning(i)
	}
	switch node.Kind {
	case firthnapkin.KindType, firthnapkin.KindNull, firthnapkin.KindInt, firthnapkin.KindLargeInt, firthnapkin.KindFloat,
		firthnapkin.KindString, firthnapkin.KindBlockString, firthnapkin.KindBoolean:
		// The name of these is all of them, and no name elsewhere.
		if name == d.Text(i) {
			name = nil
		}
	}
	children := each(d.Children(i), func(i int) any { return i })
	return []any{node.Kind.String(), node.Descendants, position(node.Start), position(node.End), d.Text(i), name, meaning, children}
}

func valueOf(value any) any {
	switch it := value.(type) {
	case int64:
		return object{"int", fmt.Sprint(it)}
	case firthnapkin.Number:
		return object{"int", string(it)}
	case float64:
		return object{"float", fmt.Sprintf("%016x", math.Float64bits(it))}
	case firthnapkin.Enum:
		return object{"enum", it.Name}
	case firthnapkin.Variable:
		return object{"variable", it.Name}
	case []any:
		return each(it, valueOf)
	case map[string]any:
		keys := make([]string, 0, len(it))
		for key := range it {
			keys = append(keys, key)
		}
		sort.Strings(keys)
		return object{"object", each(keys, func(key string) any { return []any{key, valueOf(it[key])} })}
	default:
		return it
	}
}

func partOf(p firthnapkin.Part, more ...any) object {
	var excerpt any
	if len(p.Document().Source) <= long {
		excerpt = p.Excerpt()
	}
	return append(object{"node", p.Index(), "line", p.Line(), "column", p.Column(), "text", p.Text(), "excerpt", excerpt}, more...)
}

func argument(a firthnapkin.Argument) any {
	return partOf(a, "name", a.Name(), "value", valueOf(a.Value()))
}

func directive(d firthnapkin.Directive) any {
	return partOf(d, "name", d.Name(), "arguments", each(d.Arguments(), argument))
}

func selection(s firthnapkin.Selection) any {
	switch it := s.(type) {
	case firthnapkin.FragmentSpread:
		return partOf(it, "name", it.Name(), "kind", "fragment_spread", "directives", each(it.Directives(), directive))
	case firthnapkin.InlineFragment:
		return partOf(it, "name", orNull(it.TypeCondition()), "kind", "inline_fragment", "directives", each(it.Directives(), directive),
			"selections", each(it.Selections(), selection))
	case firthnapkin.Field:
		return partOf(it, "name", it.Name(), "kind", "field", "alias", orNull(it.Alias()), "key", it.ResponseKey(), "arguments",
			each(it.Arguments(), argument), "directives", each(it.Directives(), directive), "selections", each(it.Selections(), selection))
	}
	panic("no selection")
}

func variable(v firthnapkin.VariableDefinition) any {
	initial := []any{}
	if value, ok := v.DefaultValue(); ok {
		initial = append(initial, valueOf(value))
	}
	return partOf(v, "name", v.Name(), "type", v.Type(), "default", initial, "directives", each(v.Directives(), directive))
}

func complexity(o firthnapkin.Operation) any {
	found, err := o.Complexity()
	if err != nil {
		return errorOf(err)
	}
	return []any{found.Fields, found.Aliases, found.Directives, found.RootFields, found.Depth}
}

func operation(o firthnapkin.Operation) any {
	return partOf(o, "name", orNull(o.Name()), "kind", o.Kind().String(), "complexity", complexity(o), "variables",
		each(o.Variables(), variable), "directives", each(o.Directives(), directive), "selections", each(o.Selections(), selection))
}

func fragment(f firthnapkin.Fragment) any {
	return partOf(f, "name", f.Name(), "type", f.TypeCondition(), "directives", each(f.Directives(), directive),
		"selections", each(f.Selections(), selection))
}

func nodesOf(d *firthnapkin.Document) any {
	first := len(d.Nodes) - len(lastOf(d.Nodes, d.Source))
	nodes := []any{}
	for i := first; i < len(d.Nodes); i++ {
		nodes = append(nodes, nodeOf(d, i))
	}
	return nodes
}

func valueAlone(text string) any {
	found, err := firthnapkin.ParseValue(text, firthnapkin.DefaultLimits)
	if err != nil {
		return errorOf(err)
	}
	return partOf(found, "nodes", nodesOf(found.Document()), "value", valueOf(found.Value()))
}

func typeAlone(text string) any {
	found, err := firthnapkin.ParseType(text, firthnapkin.DefaultLimits)
	if err != nil {
		return errorOf(err)
	}
	return partOf(found, "nodes", nodesOf(found.Document()), "type", found.Type())
}

func documentOf(d *firthnapkin.Document) any {
	return object{"nodes", nodesOf(d), "definitions", each(d.Definitions(), func(i int) any { return i }),
		"operations", each(d.Operations(), operation), "fragments", each(d.Fragments(), fragment)}
}

func lineOf(text string) object {
	few := firthnapkin.DefaultLimits
	few.Depth, few.Tokens = 3, 20
	var document, refused, within, constant any
	if found, err := firthnapkin.Parse(text); err != nil {
		refused = errorOf(err)
	} else {
		document = documentOf(found)
	}
	if _, err := firthnapkin.ParseWithin(text, few); err != nil {
		within = errorOf(err)
	}
	if _, err := firthnapkin.ParseConstValue(text, few); err != nil {
		constant = errorOf(err)
	}
	return object{"tokens", tokensOf(text), "canonical", canonicalOf(text), "error", refused, "within", within,
		"value", valueAlone(text), "constant", constant, "type", typeAlone(text), "document", document}
}

func main() {
	corpus, err := os.ReadFile(os.Args[1])
	if err != nil {
		panic(err)
	}
	out := bufio.NewWriter(os.Stdout)
	defer out.Flush()
	for rest := string(corpus); rest != ""; {
		var length int
		fmt.Sscan(rest, &length)
		start := strings.IndexByte(rest, '\n') + 1
		fmt.Fprintln(out, written(lineOf(rest[start:start+length])))
		rest = rest[start+length+1:]
	}
}

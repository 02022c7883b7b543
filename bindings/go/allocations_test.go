//go:build linux && (amd64 || arm64) && cgo

package firthnapkin

import (
	"strings"
	"testing"
)

// copies returns how often a call allocates.
func copies(ask func()) int { return int(testing.AllocsPerRun(5, ask)) }

// TestTextsAreNotCopied asks each part for its texts, of which some are long: a text is a part of the source or of the document's
// texts, and is never copied.
func TestTextsAreNotCopied(t *testing.T) {
	long := strings.Repeat("x", 1<<16)
	document := parsed(t, `query Q($v: [T!] = "`+long+`" @d) @d(e: "`+long+`") { b: `+long+`(c: "\n`+long+`") @e { ...`+long+
		` } ... on `+long+` { g } } fragment `+long+` on `+long+` { h }`)
	for i := range document.Nodes {
		for name, ask := range map[string]func(int) string{"Text": document.Text, "Name": document.Name, "Meaning": document.Meaning} {
			same(t, name, copies(func() { ask(i) }), 0)
		}
		same(t, "Next", copies(func() { document.Next(i) }), 0)
	}
	seen := 0
	of := func(p Part, texts ...func() string) {
		for _, ask := range append(texts, p.Text) {
			seen++
			same(t, "a text", copies(func() { ask() }), 0)
		}
		same(t, "numbers", copies(func() { _, _, _, _ = p.Line(), p.Column(), p.Index(), p.Document() }), 0)
	}
	directives := func(all []Directive) {
		for _, it := range all {
			of(it, it.Name)
			for _, argument := range it.Arguments() {
				of(argument, argument.Name)
			}
		}
	}
	operation, fragment := document.Operations()[0], document.Fragments()[0]
	of(operation, operation.Name)
	of(fragment, fragment.Name, fragment.TypeCondition)
	variable := operation.Variables()[0]
	of(variable, variable.Name, variable.Type)
	directives(append(operation.Directives(), variable.Directives()...))
	field, inline := operation.Selections()[0].(Field), operation.Selections()[1].(InlineFragment)
	of(field, field.Name, field.Alias, field.ResponseKey)
	of(field.Arguments()[0], field.Arguments()[0].Name)
	of(inline, inline.TypeCondition)
	spread := field.Selections()[0].(FragmentSpread)
	of(spread, spread.Name)
	directives(field.Directives())
	same(t, "texts", seen, 26)
}

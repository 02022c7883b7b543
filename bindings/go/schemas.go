//go:build linux && (amd64 || arm64) && cgo

package firthnapkin

import "strings"

// What is said of a schema, which this parser doesn't read, and of the description of an operation or a fragment.
const (
	schemaWords      = ": this is a schema's definition, not a request's"
	descriptionWords = ": a description before a request isn't in the specification of October 2021"
)

// What is said of a definition that begins with this token and that no document may have, or not with a description. An operation or a
// fragment without a description begins at no unexpected token.
var wordsOfDefinition = map[string]string{
	"type": schemaWords, "schema": schemaWords, "extend": schemaWords, "directive": schemaWords, "scalar": schemaWords,
	"interface": schemaWords, "union": schemaWords, "enum": schemaWords, "input": schemaWords,
	"query": descriptionWords, "mutation": descriptionWords, "subscription": descriptionWords, "fragment": descriptionWords,
	"{": descriptionWords,
}

var loosest = within(MaxDepth, AnyTokens)

// wordsOn returns what is said of an unexpected token that begins a definition, or the description of one, or "" if it doesn't. What is
// before a definition is a document, or has no tokens.
func wordsOn(source string, start, end Position) string {
	token := source[start.Byte:end.Byte]
	if strings.HasPrefix(token, `"`) {
		token = firstToken(source[end.Byte:])
	}
	words := wordsOfDefinition[token]
	if words == "" || !mayGoOn(source[:start.Byte]) {
		return ""
	}
	return words
}

// firstToken returns the text of the first token of a source, or "" if there is none: no token is allowed, so the first is an error.
func firstToken(source string) string {
	_, err := TokensWithin(source, 0)
	if found, ok := err.(*SyntaxError); ok {
		return source[found.Start.Byte:found.End.Byte]
	}
	return ""
}

// mayGoOn says whether a definition may come after a source: it is a document, or has no tokens.
func mayGoOn(source string) bool {
	if _, err := ParseWithin(source, loosest); err == nil {
		return true
	}
	canonical, err := Canonical(source)
	return err == nil && canonical == ""
}

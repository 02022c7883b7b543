//go:build linux && (amd64 || arm64) && cgo

package firthnapkin

/*
#include "calls.h"
*/
import "C"

// Kind is the kind of a node.
type Kind uint32

// The kinds of nodes.
const (
	// tables.toml: kinds

	KindQuery               Kind = C.FIRTHNAPKIN_QUERY                // an operation that only reads
	KindMutation            Kind = C.FIRTHNAPKIN_MUTATION             // an operation that writes
	KindSubscription        Kind = C.FIRTHNAPKIN_SUBSCRIPTION         // a long-lived operation
	KindFragmentDefinition  Kind = C.FIRTHNAPKIN_FRAGMENT_DEFINITION  // the definition of a fragment
	KindVariableDefinitions Kind = C.FIRTHNAPKIN_VARIABLE_DEFINITIONS // the variable definitions of an operation
	KindVariableDefinition  Kind = C.FIRTHNAPKIN_VARIABLE_DEFINITION  // a variable definition, by its name
	KindType                Kind = C.FIRTHNAPKIN_TYPE                 // the type of a variable
	KindField               Kind = C.FIRTHNAPKIN_FIELD                // a field that is selected
	KindAlias               Kind = C.FIRTHNAPKIN_ALIAS                // the alias of a field
	KindFragmentSpread      Kind = C.FIRTHNAPKIN_FRAGMENT_SPREAD      // the use of a fragment by its name
	KindInlineFragment      Kind = C.FIRTHNAPKIN_INLINE_FRAGMENT      // a fragment without a name; its name is its type condition
	KindDirective           Kind = C.FIRTHNAPKIN_DIRECTIVE            // the use of a directive
	KindArguments           Kind = C.FIRTHNAPKIN_ARGUMENTS            // the arguments of a field or a directive
	KindArgument            Kind = C.FIRTHNAPKIN_ARGUMENT             // an argument, by its name
	KindNull                Kind = C.FIRTHNAPKIN_NULL                 // the value null
	KindEnum                Kind = C.FIRTHNAPKIN_ENUM                 // a value of an enum
	KindVariable            Kind = C.FIRTHNAPKIN_VARIABLE             // a variable used as a value
	KindList                Kind = C.FIRTHNAPKIN_LIST                 // a list of values
	KindObject              Kind = C.FIRTHNAPKIN_OBJECT               // an object, with its fields
	KindObjectField         Kind = C.FIRTHNAPKIN_OBJECT_FIELD         // a field of an object, by its name
	KindInt                 Kind = C.FIRTHNAPKIN_INT                  // an Int that 32 bits hold
	KindLargeInt            Kind = C.FIRTHNAPKIN_LARGE_INT            // an Int that 32 bits don't hold
	KindFloat               Kind = C.FIRTHNAPKIN_FLOAT                // a number with a fraction or an exponent
	KindString              Kind = C.FIRTHNAPKIN_STRING               // a String between quotes
	KindBlockString         Kind = C.FIRTHNAPKIN_BLOCK_STRING         // a String between three quotes on each side
	KindBoolean             Kind = C.FIRTHNAPKIN_BOOLEAN              // true or false
	// tables.toml: end
)

// Position is the number of characters of the source, of line feeds, of characters of the line, and of bytes before it: each is
// counted from 0.
type Position struct {
	Index, Line, Column, Byte uint32
}

// Node is a part of a document, as the library writes it. After it come the nodes of the parts in it. Document's methods return its texts.
type Node struct {
	Kind        Kind
	Descendants uint32 // how many of the nodes after it are of parts in it
	Start, End  Position
	// The bytes of the source that are its name: Document.Name.
	NameStart, NameEnd uint32
	// Value is an Int's number, a Boolean's 0 or 1. Of strings, types and fragments see Document.Meaning; otherwise it is 0.
	Value       int64
	ValueLength uint32
	_           uint32
}

// Document is a source's nodes, each part before the parts in it. Operations and Fragments begin with the parts by their names.
type Document struct {
	Source     string
	SourceName string // what ParseNamed was given, otherwise ""
	Nodes      []Node
	texts      string
	measured   *measured
}

// Text returns the text of node i, as it is written.
func (d *Document) Text(i int) string {
	return d.Source[d.Nodes[i].Start.Byte:d.Nodes[i].End.Byte]
}

// Name returns the name of node i, without $ and @: of a scalar, null and a type all of it, of an inline fragment its type
// condition, and nothing if there is no name.
func (d *Document) Name(i int) string {
	return d.Source[d.Nodes[i].NameStart:d.Nodes[i].NameEnd]
}

// Meaning returns what the string or block string i means, the type i without spaces, and the type condition of the
// fragment i; for all other nodes it returns nothing.
func (d *Document) Meaning(i int) string {
	n := &d.Nodes[i]
	from, length := n.Value, int64(n.ValueLength)
	switch n.Kind {
	case KindString, KindBlockString, KindType:
		return d.texts[from : from+length]
	case KindFragmentDefinition:
		return d.Source[from : from+length]
	}
	return ""
}

// Next returns the index after node i and the parts in it: the index of its next sibling, if it has one.
func (d *Document) Next(i int) int {
	return i + 1 + int(d.Nodes[i].Descendants)
}

// Children returns the nodes of the parts in node i that are in no other part in it.
func (d *Document) Children(i int) []int {
	return d.between(i+1, d.Next(i))
}

// Definitions returns the operations and fragments. A value or a type that was parsed alone has none.
func (d *Document) Definitions() []int {
	if len(d.Nodes) > 0 && d.Nodes[0].Kind > KindFragmentDefinition {
		return nil
	}
	return d.between(0, len(d.Nodes))
}

func (d *Document) between(i, end int) []int {
	var found []int
	for ; i < end; i = d.Next(i) {
		found = append(found, i)
	}
	return found
}

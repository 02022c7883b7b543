//go:build linux && (amd64 || arm64) && cgo

package firthnapkin

// Part is what all parts of a document have: an Operation, a Fragment, a Field, a FragmentSpread, an InlineFragment, a
// VariableDefinition, a Directive, an Argument, a ParsedValue, a ParsedType. A part is made when it is asked for, and refers to its document. The zero value of
// these types is no part, and has none of this.
type Part interface {
	Document() *Document
	Index() int
	Text() string
	Line() int
	Column() int
	Excerpt() string
}

// Selection is a Field, a FragmentSpread or an InlineFragment: a switch on its type tells which.
type Selection interface {
	Part
	// Directives returns its directives, in the order of the source.
	Directives() []Directive
	isSelection()
}

type part struct {
	document *Document
	index    int
}

// Document returns the document that it is a part of.
func (p part) Document() *Document { return p.document }

// Index returns the index of its node among the document's Nodes.
func (p part) Index() int { return p.index }

// Line returns the line where it starts, counted from 1. Lines end at line feeds.
func (p part) Line() int { return int(p.node().Start.Line) + 1 }

// Column returns the column where it starts, in characters, counted from 1.
func (p part) Column() int { return int(p.node().Start.Column) + 1 }

// Excerpt returns the lines around its start, as SyntaxError.Excerpt does.
func (p part) Excerpt() string { return excerptAt(p.document.Source, p.node().Start.Byte) }

// Text returns the text of all of it, as it is written.
func (p part) Text() string {
	return p.document.Source[p.node().Start.Byte:p.document.endOf(p.index)]
}

func (p part) node() *Node {
	return &p.document.Nodes[p.index]
}

// endOf returns the byte after all of node i. The node of a variable definition or an argument ends with its name, so the last
// part in it says where it ends.
func (d *Document) endOf(i int) uint32 {
	last := i
	if kind := d.Nodes[i].Kind; kind == KindVariableDefinition || kind == KindArgument {
		for child := i + 1; child < d.Next(i); child = d.Next(child) {
			last = child
		}
	}
	return d.Nodes[last].End.Byte
}

// first returns the first part in this one that is of a kind.
func (p part) first(kind Kind) (part, bool) {
	for i := p.index + 1; i < p.document.Next(p.index); i = p.document.Next(i) {
		if p.document.Nodes[i].Kind == kind {
			return part{p.document, i}, true
		}
	}
	return part{}, false
}

func (p part) directives() []Directive {
	var found []Directive
	for i := p.index + 1; i < p.document.Next(p.index); i = p.document.Next(i) {
		if p.document.Nodes[i].Kind == KindDirective {
			found = append(found, Directive{part{p.document, i}})
		}
	}
	return found
}

func (p part) selections() []Selection {
	var found []Selection
	for i := p.index + 1; i < p.document.Next(p.index); i = p.document.Next(i) {
		it := part{p.document, i}
		switch it.node().Kind {
		case KindField:
			found = append(found, Field{it})
		case KindFragmentSpread:
			found = append(found, FragmentSpread{it})
		case KindInlineFragment:
			found = append(found, InlineFragment{it})
		}
	}
	return found
}

func (p part) arguments() []Argument {
	list, ok := p.first(KindArguments)
	if !ok {
		return nil
	}
	var found []Argument
	for i := list.index + 1; i < p.document.Next(list.index); i = p.document.Next(i) {
		found = append(found, Argument{part{p.document, i}})
	}
	return found
}

func (p part) argument(name string) (Argument, bool) {
	for _, argument := range p.arguments() {
		if argument.Name() == name {
			return argument, true
		}
	}
	return Argument{}, false
}

// Operations returns the operations, in the order of the source.
func (d *Document) Operations() []Operation {
	var found []Operation
	for _, i := range d.Definitions() {
		if d.Nodes[i].Kind != KindFragmentDefinition {
			found = append(found, Operation{part{d, i}})
		}
	}
	return found
}

// Fragments returns the fragments, in the order of the source.
func (d *Document) Fragments() []Fragment {
	var found []Fragment
	for _, i := range d.Definitions() {
		if d.Nodes[i].Kind == KindFragmentDefinition {
			found = append(found, Fragment{part{d, i}})
		}
	}
	return found
}

// Operation returns the first operation of a name. If the name is "" it returns the document's only operation, whatever its
// name, and none if there are several.
func (d *Document) Operation(name string) (Operation, bool) {
	operations := d.Operations()
	if name == "" {
		if len(operations) == 1 {
			return operations[0], true
		}
		return Operation{}, false
	}
	for _, operation := range operations {
		if operation.Name() == name {
			return operation, true
		}
	}
	return Operation{}, false
}

// Fragment returns the first fragment of a name.
func (d *Document) Fragment(name string) (Fragment, bool) {
	for _, fragment := range d.Fragments() {
		if fragment.Name() == name {
			return fragment, true
		}
	}
	return Fragment{}, false
}

// Operation is a query, a mutation or a subscription.
type Operation struct{ part }

// Kind returns KindQuery, KindMutation or KindSubscription.
func (o Operation) Kind() Kind { return o.node().Kind }

// Name returns the name, and "" if there is none.
func (o Operation) Name() string { return o.document.Name(o.index) }

// Variables returns the variable definitions, in the order of the source.
func (o Operation) Variables() []VariableDefinition {
	list, ok := o.first(KindVariableDefinitions)
	if !ok {
		return nil
	}
	var found []VariableDefinition
	for i := list.index + 1; i < o.document.Next(list.index); i = o.document.Next(i) {
		found = append(found, VariableDefinition{part{o.document, i}})
	}
	return found
}

// Directives returns the directives, in the order of the source.
func (o Operation) Directives() []Directive { return o.directives() }

// Selections returns the selections, in the order of the source.
func (o Operation) Selections() []Selection { return o.selections() }

// Fragment is the definition of a fragment.
type Fragment struct{ part }

// Name returns the name.
func (f Fragment) Name() string { return f.document.Name(f.index) }

// TypeCondition returns the name of the type that the fragment is on.
func (f Fragment) TypeCondition() string { return f.document.Meaning(f.index) }

// Directives returns the directives, in the order of the source.
func (f Fragment) Directives() []Directive { return f.directives() }

// Selections returns the selections, in the order of the source.
func (f Fragment) Selections() []Selection { return f.selections() }

// Field is a field that is selected.
type Field struct{ part }

// Alias returns the alias, and "" if there is none.
func (f Field) Alias() string {
	if alias, ok := f.first(KindAlias); ok {
		return f.document.Name(alias.index)
	}
	return ""
}

// Name returns the name of the field, whatever its alias.
func (f Field) Name() string { return f.document.Name(f.index) }

// ResponseKey returns the alias, and the name if there is none: the key of the field in a response.
func (f Field) ResponseKey() string {
	if alias := f.Alias(); alias != "" {
		return alias
	}
	return f.Name()
}

// Arguments returns the arguments, in the order of the source.
func (f Field) Arguments() []Argument { return f.arguments() }

// Argument returns the first argument of a name.
func (f Field) Argument(name string) (Argument, bool) { return f.argument(name) }

// Directives returns the directives, in the order of the source.
func (f Field) Directives() []Directive { return f.directives() }

// Selections returns the selections in the field, in the order of the source.
func (f Field) Selections() []Selection { return f.selections() }

func (Field) isSelection() {}

// FragmentSpread is the use of a fragment by its name.
type FragmentSpread struct{ part }

// Name returns the name of the fragment.
func (s FragmentSpread) Name() string { return s.document.Name(s.index) }

// Directives returns the directives, in the order of the source.
func (s FragmentSpread) Directives() []Directive { return s.directives() }

func (FragmentSpread) isSelection() {}

// InlineFragment is a fragment without a name.
type InlineFragment struct{ part }

// TypeCondition returns the name of the type that the fragment is on, and "" if there is none.
func (f InlineFragment) TypeCondition() string { return f.document.Name(f.index) }

// Directives returns the directives, in the order of the source.
func (f InlineFragment) Directives() []Directive { return f.directives() }

// Selections returns the selections, in the order of the source.
func (f InlineFragment) Selections() []Selection { return f.selections() }

func (InlineFragment) isSelection() {}

// VariableDefinition is the definition of a variable by an operation.
type VariableDefinition struct{ part }

// Name returns the name, without $.
func (v VariableDefinition) Name() string { return v.document.Name(v.index) }

// Type returns the type without spaces, as "[ID!]!".
func (v VariableDefinition) Type() string { return v.document.Meaning(v.index + 1) }

// DefaultValue returns the default value, as Argument.Value does, and whether there is one.
func (v VariableDefinition) DefaultValue() (value any, ok bool) {
	i := v.document.Next(v.index + 1)
	if i == v.document.Next(v.index) || v.document.Nodes[i].Kind == KindDirective {
		return nil, false
	}
	return v.document.valueOf(i), true
}

// Directives returns the directives, in the order of the source.
func (v VariableDefinition) Directives() []Directive { return v.directives() }

// Directive is a directive of a part of a document.
type Directive struct{ part }

// Name returns the name, without @.
func (d Directive) Name() string { return d.document.Name(d.index) }

// Arguments returns the arguments, in the order of the source.
func (d Directive) Arguments() []Argument { return d.arguments() }

// Argument returns the first argument of a name.
func (d Directive) Argument(name string) (Argument, bool) { return d.argument(name) }

// Argument is an argument of a field or a directive.
type Argument struct{ part }

// Name returns the name.
func (a Argument) Name() string { return a.document.Name(a.index) }

// Value returns the value as Go's own data:
//
//	null                          nil
//	true, false                   bool
//	an Int that 64 bits hold      int64
//	a Float                       float64, the nearest
//	a larger Int or Float         Number, as it is written
//	a String, a block string      string, what it means
//	an Enum                       Enum
//	a variable                    Variable
//	a list                        []any
//	an object                     map[string]any; of a key that is there twice, the last value
func (a Argument) Value() any { return a.document.valueOf(a.index + 1) }

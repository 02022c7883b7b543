//go:build linux && (amd64 || arm64) && cgo

package firthnapkin

import "strconv"

// Enum is the value of an enum, by its name. It isn't a string, so the two can be distinguished.
type Enum struct{ Name string }

// String returns the name.
func (e Enum) String() string { return e.Name }

// Variable is a variable used as a value, by its name without $.
type Variable struct{ Name string }

// String returns the name after a $.
func (v Variable) String() string { return "$" + v.Name }

// Number is an Int that int64 doesn't hold, or a Float that float64 doesn't hold, as it is written.
type Number string

// String returns the number, as it is written.
func (n Number) String() string { return string(n) }

// valueOf returns what the value i is as Go's own data. Values are nested as deep as the limit of the parse, and so is this call.
func (d *Document) valueOf(i int) any {
	switch d.Nodes[i].Kind {
	case KindBoolean:
		return d.Nodes[i].Value == 1
	case KindInt:
		return d.Nodes[i].Value
	case KindLargeInt:
		return integerOf(d.Text(i))
	case KindFloat:
		return floatOf(d.Text(i))
	case KindString, KindBlockString:
		return d.Meaning(i)
	case KindEnum:
		return Enum{d.Name(i)}
	case KindVariable:
		return Variable{d.Name(i)}
	case KindList:
		return d.listOf(i)
	case KindObject:
		return d.objectOf(i)
	}
	return nil
}

func (d *Document) listOf(i int) []any {
	items := []any{}
	for item := i + 1; item < d.Next(i); item = d.Next(item) {
		items = append(items, d.valueOf(item))
	}
	return items
}

func (d *Document) objectOf(i int) map[string]any {
	fields := map[string]any{}
	for field := i + 1; field < d.Next(i); field = d.Next(field) {
		fields[d.Name(field)] = d.valueOf(field + 1)
	}
	return fields
}

func integerOf(text string) any {
	if number, err := strconv.ParseInt(text, 10, 64); err == nil {
		return number
	}
	return Number(text)
}

func floatOf(text string) any {
	if number, err := strconv.ParseFloat(text, 64); err == nil {
		return number
	}
	return Number(text)
}

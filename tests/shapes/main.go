// Measures each public method of each part that Go's package returns for a corpus's texts, as tests/corpus.py writes one.
//
//	asked CORPUS
//
// For each text it writes a line: an object with a list for each type and name, of the time that it takes to ask it of each part of
// the type, in nanoseconds, of the size of what they return, and of the number of parts. `walk` is all of it on a new document.
package main

import (
	"encoding/json"
	"fmt"
	"os"
	"reflect"
	"runtime"
	"strings"
	"syscall"
	"unsafe"

	firthnapkin "firthnapkin.example/go"
)

// reading is what reads the source each time, and returns no part: a walk leaves it out.
const reading = "Excerpt"

// What is measured of a type and a name.
type measured [3]int

var limits = func() firthnapkin.Limits {
	limits := firthnapkin.DefaultLimits
	limits.Depth = firthnapkin.MaxDepth
	return limits
}()

// isPart says whether a value is one of the package's structs that have methods, and no values of a source.
func isPart(v reflect.Value) bool {
	t := v.Type()
	for t.Kind() == reflect.Pointer {
		t = t.Elem()
	}
	return t.Kind() == reflect.Struct && strings.HasSuffix(t.PkgPath(), "/go") && v.NumMethod() > 0 &&
		t != reflect.TypeOf(firthnapkin.Enum{}) && t != reflect.TypeOf(firthnapkin.Variable{})
}

// arguments returns what a method is called with, one list for each call: a name, each index of a document's nodes, a source.
func arguments(part reflect.Value, method reflect.Type, source string) [][]reflect.Value {
	if method.NumIn() == 0 {
		return [][]reflect.Value{nil}
	}
	if method.NumIn() > 1 {
		return nil
	}
	switch method.In(0).Kind() {
	case reflect.String:
		if document, ok := part.Interface().(*firthnapkin.Document); ok && document != nil {
			return [][]reflect.Value{{reflect.ValueOf("b")}}
		}
		return [][]reflect.Value{{reflect.ValueOf(source)}}
	case reflect.Int:
		lists := [][]reflect.Value{}
		for i := range part.Interface().(*firthnapkin.Document).Nodes {
			lists = append(lists, []reflect.Value{reflect.ValueOf(i)})
		}
		return lists
	}
	return nil
}

// sizeOf returns how much a value has: bytes of strings, and items.
func sizeOf(v reflect.Value) int {
	switch v.Kind() {
	case reflect.String:
		return 1 + v.Len()
	case reflect.Slice:
		size := 1
		for i := 0; i < v.Len(); i++ {
			size += sizeOf(v.Index(i))
		}
		return size
	case reflect.Map:
		size := 1
		for _, key := range v.MapKeys() {
			size += sizeOf(key) + sizeOf(v.MapIndex(key))
		}
		return size
	case reflect.Interface:
		if v.IsNil() {
			return 1
		}
		return 1 + sizeOf(v.Elem())
	}
	return 1
}

// parts are all that can be reached from some, each once, by their types.
type parts struct {
	source string
	seen   map[any]bool
	found  map[reflect.Type][]reflect.Value
}

func (p *parts) add(v reflect.Value) {
	for v.Kind() == reflect.Interface {
		v = v.Elem()
	}
	if !v.IsValid() {
		return
	}
	if v.Kind() == reflect.Slice {
		for i := 0; i < v.Len(); i++ {
			p.add(v.Index(i))
		}
		return
	}
	if v.Kind() == reflect.Pointer && v.IsNil() || !isPart(v) || p.seen[v.Interface()] {
		return
	}
	if part, ok := v.Interface().(firthnapkin.Part); ok && part.Document() == nil {
		return // what a call returns that found none
	}
	p.seen[v.Interface()] = true
	p.found[v.Type()] = append(p.found[v.Type()], v)
	for i := 0; i < v.NumMethod(); i++ {
		if v.Type().Method(i).Name == reading {
			continue
		}
		for _, list := range arguments(v, v.Method(i).Type(), p.source) {
			for _, result := range v.Method(i).Call(list) {
				p.add(result)
			}
		}
	}
}

// first returns the text of the first node of a kind, or of one so many after it, if a document has one.
func first(d *firthnapkin.Document, kind firthnapkin.Kind, after int) []string {
	for i, node := range d.Nodes {
		if node.Kind == kind {
			return []string{d.Text(i + after)}
		}
	}
	return nil
}

// reached returns all parts of a source, of its first value and its first type, each alone, of its tokens, and of the error of a
// source that goes on wrongly.
func reached(source string) map[reflect.Type][]reflect.Value {
	document, err := firthnapkin.ParseWithin(source, limits)
	if err != nil {
		panic(err)
	}
	tokens, err := firthnapkin.Tokens(source)
	if err != nil {
		panic(err)
	}
	_, err = firthnapkin.ParseWithin(source+" )", limits)
	roots := []any{document, tokens, err}
	for _, text := range first(document, firthnapkin.KindArgument, 1) {
		value, _ := firthnapkin.ParseValue(text, limits)
		roots = append(roots, value)
	}
	for _, text := range first(document, firthnapkin.KindType, 0) {
		of, _ := firthnapkin.ParseType(text, limits)
		roots = append(roots, of)
	}
	p := parts{source, map[any]bool{}, map[reflect.Type][]reflect.Value{}}
	for _, root := range roots {
		p.add(reflect.ValueOf(root))
	}
	return p.found
}

// used returns how long this thread ran, in nanoseconds.
func used() int {
	var time syscall.Timespec
	const ofThread = 3
	if _, _, err := syscall.Syscall(syscall.SYS_CLOCK_GETTIME, ofThread, uintptr(unsafe.Pointer(&time)), 0); err != 0 {
		panic(err)
	}
	return int(time.Nano())
}

// timeOf returns how long a call takes, in nanoseconds.
func timeOf(call func()) int {
	begin := used()
	call()
	return used() - begin
}

// ofMethod measures a method of all parts of a type.
func ofMethod(all []reflect.Value, i int, source string) measured {
	calls, lists, results := []reflect.Value{}, [][][]reflect.Value{}, [][]reflect.Value{}
	for _, part := range all {
		calls = append(calls, part.Method(i))
		lists = append(lists, arguments(part, part.Method(i).Type(), source))
	}
	taken := timeOf(func() {
		for j, call := range calls {
			for _, list := range lists[j] {
				results = append(results, call.Call(list))
			}
		}
	})
	size := 0
	for _, result := range results {
		if len(result) > 0 {
			size += sizeOf(result[0])
		}
	}
	return measured{taken, size, len(results)}
}

func lineOf(source string) map[string]measured {
	functions := map[string]func(){
		"Parse":     func() { firthnapkin.ParseWithin(source, limits) },
		"Check":     func() { firthnapkin.Check(source, limits) },
		"Tokens":    func() { firthnapkin.Tokens(source) },
		"Canonical": func() { firthnapkin.Canonical(source) },
	}
	document, _ := firthnapkin.ParseWithin(source, limits)
	for _, text := range first(document, firthnapkin.KindArgument, 1) {
		functions["ParseValue"] = func() { firthnapkin.ParseValue(text, limits) }
		functions["ParseConstValue"] = func() { firthnapkin.ParseConstValue(text, limits) }
	}
	for _, text := range first(document, firthnapkin.KindType, 0) {
		functions["ParseType"] = func() { firthnapkin.ParseType(text, limits) }
	}
	found := map[string]measured{}
	for name, call := range functions {
		found[name] = measured{timeOf(call), len(source), 1}
	}
	begin := used()
	parts := reached(source)
	walk := measured{used() - begin, 0, 1}
	for kind, all := range parts {
		for i := 0; i < kind.NumMethod(); i++ {
			found[fmt.Sprint(kind, ".", kind.Method(i).Name)] = ofMethod(all, i, source)
		}
	}
	// What can be reached from a part includes what each returns.
	for _, it := range found {
		walk[1] += it[1]
	}
	found["walk"] = walk
	return found
}

func main() {
	runtime.LockOSThread()
	corpus, err := os.ReadFile(os.Args[1])
	if err != nil {
		panic(err)
	}
	for rest := string(corpus); rest != ""; {
		var length int
		fmt.Sscan(rest, &length)
		start := strings.IndexByte(rest, '\n') + 1
		line, err := json.Marshal(lineOf(rest[start : start+length]))
		if err != nil {
			panic(err)
		}
		fmt.Println(string(line))
		rest = rest[start+length+1:]
	}
}

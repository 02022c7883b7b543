package firthnapkin

import (
	"errors"
	"fmt"
	"os"
	"os/exec"
	"reflect"
	"strings"
	"sync"
	"syscall"
	"testing"
	"unsafe"
)

func TestManyNodes(t *testing.T) {
	d := parsed(t, "{"+strings.Repeat("a{b}", 35000)+"}")
	same(t, "nodes", []int{len(d.Nodes), d.Next(0), len(d.Children(0))}, []int{70001, 70001, 35000})
	for _, i := range []int{1, 127, 129, 255, 257, 32767, 32769, 65535, 65537, 69999} {
		same(t, fmt.Sprintf("the children and the name of node %d", i), []any{d.Children(i), d.Name(i), d.Text(i), d.Name(i + 1)},
			[]any{[]int{i + 1}, "a", "a{b}", "b"})
	}
}

// The arrays for a document of as many nodes as a request has are allocated once. For more nodes, and for longer texts, they
// are allocated twice, with what the call returned.
func TestAllocations(t *testing.T) {
	allocations := func(source string) int { return int(testing.AllocsPerRun(10, func() { parsed(t, source) })) }
	request := "query Q($id: ID!) {\n  userOf(id: $id, first: 10) {\n    id\n    fullName\n  }\n}\n"
	once := allocations("{ a }")
	// The texts are an allocation, too.
	same(t, "of a request", allocations(request)-once, 1)
	same(t, "of a hundred requests", allocations(strings.Repeat(request, 100))-once, 1)
	for _, source := range []string{"{" + strings.Repeat("a ", 1000) + "}", "{a(b:\"" + strings.Repeat("c", 1000) + "\")}"} {
		if found := allocations(source); found < once+3 {
			t.Errorf("%d allocations if two calls are needed, %d if one is", found, once)
		}
	}
}

func TestDepths(t *testing.T) {
	deep := strings.Repeat("{a", 200000)
	for _, depth := range []int{-1, -1 << 63, MaxDepth + 1, 1<<31 - 1, 1<<32 - 1, 1 << 32, 1<<32 + 5, 1<<63 - 1} {
		for _, source := range []string{deep, "{a}", "", "\xff"} {
			if _, err := ParseWithin(source, within(depth, AnyTokens)); !errors.Is(err, ErrInvalidLimit) {
				t.Errorf("the depth %d: %v", depth, err)
			}
		}
	}
	_, err := ParseWithin("{a}", within(1001, 5))
	same(t, "the words of a depth", err.Error(), "firthnapkin: invalid limit: Depth 1001 is not from 0 to 1000")
	_, err = ParseWithin("{a}", within(5, -7))
	same(t, "the words of a number of tokens", err.Error(), "firthnapkin: invalid limit: Tokens -7 is below 0")
	for _, depth := range []int{0, 1, 2, 199, 200, MaxDepth} {
		if d, err := ParseWithin(strings.Repeat("{a", depth)+strings.Repeat("}", depth), within(depth, AnyTokens)); depth > 0 &&
			(err != nil || len(d.Nodes) != depth+1) {
			t.Errorf("a text %d deep: %v", depth, err)
		}
		found := refused(t, strings.Repeat("{a", depth+1), depth)
		same(t, "too deep", []any{found.Kind, int(found.Start.Byte)}, []any{TooDeep, 2 * depth})
	}
	same(t, "the default depth", len(parsed(t, strings.Repeat("{a", 200)+strings.Repeat("}", 200)).Nodes), 201)
}

func TestTokens(t *testing.T) {
	source := "{ a(b: \"é\") ...F }"
	starts := []uint32{0, 2, 3, 4, 5, 7, 10, 12, 15, 17}
	for _, tokens := range []int{len(starts), len(starts) + 1, AnyTokens - 1, AnyTokens, 1 << 40, 1<<63 - 1} {
		if _, err := ParseWithin(source, within(5, tokens)); err != nil {
			t.Errorf("%d tokens: %v", tokens, err)
		}
	}
	for tokens, start := range starts {
		_, err := ParseWithin(source, within(5, tokens))
		var found *SyntaxError
		if !errors.As(err, &found) {
			t.Fatalf("%d tokens: %v", tokens, err)
		}
		same(t, "too many tokens", []any{found.Kind, found.Message, found.Start.Index}, []any{TooManyTokens, "Too many tokens", start})
		same(t, "their error", found.Error(), fmt.Sprintf("Too many tokens. At 1:%d", start+1))
	}
	// No lexical error after the first token too many counts, and no deep text is parsed.
	for _, source := range []string{strings.Repeat("{a", 1<<20), "{ a ) } \"", "{ a \"\x00"} {
		_, err := ParseWithin(source, within(5, 2))
		var found *SyntaxError
		same(t, source[:5], errors.As(err, &found) && found.Kind == TooManyTokens, source != "{ a \"\x00")
	}
	many := "{" + strings.Repeat("a ", 1000001)
	for _, tokens := range []int{65535, 65536, 65537, 999999, 1000000, 1000001, 1000002} {
		_, err := ParseWithin(many, within(5, tokens))
		var found *SyntaxError
		if !errors.As(err, &found) {
			t.Fatalf("%d tokens: %v", tokens, err)
		}
		wanted := []any{TooManyTokens, 2*tokens - 1}
		if tokens == 1000002 {
			wanted = []any{UnexpectedEnd, 2*tokens - 1}
		}
		same(t, "a limit on many tokens", []any{found.Kind, int(found.Start.Byte)}, wanted)
	}
	for _, tokens := range []int{-1, -1 << 63} {
		if _, err := ParseWithin(source, within(5, tokens)); !errors.Is(err, ErrInvalidLimit) {
			t.Errorf("%d tokens: %v", tokens, err)
		}
	}
	if _, err := ParseWithin("{\xff", within(5, 0)); !errors.Is(err, ErrNotUTF8) {
		t.Errorf("not UTF-8: %v", err)
	}
}

// A source that is too long is not read: no memory backs this one.
func TestTooLong(t *testing.T) {
	bytes, err := syscall.Mmap(-1, 0, 1<<32, syscall.PROT_READ, syscall.MAP_PRIVATE|syscall.MAP_ANON|syscall.MAP_NORESERVE)
	if err != nil {
		t.Skip("no address space for 4 GiB")
	}
	defer syscall.Munmap(bytes)
	source := *(*string)(unsafe.Pointer(&bytes))
	for _, tokens := range []int{5, AnyTokens} {
		if _, err := ParseWithin(source, within(5, tokens)); !errors.Is(err, ErrSourceTooLong) {
			t.Errorf("4 GiB: %v", err)
		}
	}
}

func TestGoroutines(t *testing.T) {
	source := "query Q { " + strings.Repeat(`user(id: 4, b: {c: [1.5, "x"]}) { id name } `, 500) + "}"
	wanted := lines(source)
	var wait sync.WaitGroup
	for i := 0; i < 8; i++ {
		wait.Add(1)
		go func() {
			defer wait.Done()
			for round := 0; round < 20; round++ {
				if lines(source) != wanted {
					t.Error("another answer")
				}
			}
		}()
	}
	wait.Wait()
}

// A process whose threads have stacks of 256 KiB. FIRTHNAPKIN_RUNNER is what runs a program of another processor.
func TestSmallStacks(t *testing.T) {
	if os.Getenv("FIRTHNAPKIN_SMALL_STACK") != "" {
		for _, part := range []string{"{...", "{a", "{a(x:{k:", "query($a:["} {
			refused(t, strings.Repeat(part, 5000), DefaultLimits.Depth)
			refused(t, strings.Repeat(part, 5000), MaxDepth)
		}
		same(t, "nodes", len(parsed(t, strings.Repeat("{...", 199)+"{a}"+strings.Repeat("}", 199)).Nodes), 201)
		return
	}
	shell, err := exec.LookPath("bash")
	if err != nil {
		t.Skip("no shell that sets the size of a stack")
	}
	command := exec.Command(shell, "-c", `ulimit -s 256 && exec $FIRTHNAPKIN_RUNNER "$0" -test.run '^TestSmallStacks$'`, os.Args[0])
	command.Env = append(os.Environ(), "FIRTHNAPKIN_SMALL_STACK=yes")
	if output, err := command.CombinedOutput(); err != nil {
		t.Errorf("%v: %s", err, output)
	}
}

// Each limit goes to its word, and the words that no limit has are 0.
func TestWords(t *testing.T) {
	none := []uint32{AnyNumber, AnyNumber, AnyNumber, AnyNumber, AnyNumber}
	for _, it := range []struct {
		limits        Limits
		wanted, sizes []uint32
	}{
		{DefaultLimits, []uint32{200, 1<<32 - 1}, none}, {Limits{}, []uint32{0, 0}, []uint32{0, 0, 0, 0, 0}}, {within(7, 9), []uint32{7, 9}, none},
		{within(1000, 1<<32-2), []uint32{1000, 1<<32 - 2}, none}, {within(0, 1<<32), []uint32{0, 1<<32 - 1}, none},
		{within(0, 1<<63-1), []uint32{0, 1<<32 - 1}, none}, {loosest, []uint32{1000, 1<<32 - 1}, none},
		{Limits{5, 6, 1, 2, 3, 4, AnyNumber}, []uint32{5, 6}, []uint32{1, 2, 3, 4, AnyNumber}},
		{Limits{5, 6, AnyNumber - 1, 0, 3, 4, 5}, []uint32{5, 6}, []uint32{AnyNumber - 1, 0, 3, 4, 5}},
	} {
		words, err := it.limits.words()
		found := []uint32{uint32(words.call.depth), uint32(words.call.tokens)}
		same(t, fmt.Sprint("the words of ", it.limits), []any{err, found}, []any{nil, it.wanted})
		for i, word := range words.call.reserved {
			same(t, fmt.Sprint("the reserved word ", i), uint32(word), uint32(0))
		}
		for i, word := range words.sizes.most {
			same(t, fmt.Sprint("the size ", i, " of ", it.limits), uint32(word), it.sizes[i])
		}
	}
	// Each field is an int, with the name of its word, or of its number.
	words, _ := DefaultLimits.words()
	fields, named, sizes := reflect.TypeOf(DefaultLimits), reflect.TypeOf(words.call), reflect.TypeOf(Complexity{})
	for i := 0; i < fields.NumField(); i++ {
		found := []any{fields.Field(i).Type.Kind(), strings.ToLower(fields.Field(i).Name)}
		wanted := ""
		if i < ownCount {
			wanted = named.Field(i).Name
		} else if wanted = strings.ToLower(sizes.Field(i - ownCount).Name); wanted == "depth" {
			wanted = "fielddepth"
		}
		same(t, "a field", found, []any{reflect.Int, strings.ReplaceAll(wanted, "_", "")})
	}
	// A word that the library refuses is an invalid limit.
	words.call.reserved[len(words.call.reserved)-1] = 1
	_, err := parse("{a}", words)
	same(t, "a reserved word", err, ErrInvalidLimit)
	// The first limit that is out of its range is named.
	_, err = ParseWithin("{a}", within(-1, -1))
	same(t, "the words of both", err.Error(), "firthnapkin: invalid limit: Depth -1 is not from 0 to 1000")
	_, err = TokensWithin("{a}", -1)
	same(t, "the words of a number of tokens", err.Error(), "firthnapkin: invalid limit: maxTokens -1 is below 0")
}

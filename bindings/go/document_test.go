package firthnapkin

import (
	"runtime"
	"strings"
	"testing"
	"unsafe"
)

// kept returns how many bytes of Go's memory each of some documents keeps, of sources that are there already.
func kept(t *testing.T, sources []string, keep func(*Document)) int {
	t.Helper()
	live := func() uint64 {
		runtime.GC()
		runtime.GC()
		var found runtime.MemStats
		runtime.ReadMemStats(&found)
		return found.HeapAlloc
	}
	before, documents := live(), make([]*Document, len(sources))
	for i, source := range sources {
		documents[i] = parsed(t, source)
		keep(documents[i])
	}
	taken := int(live()-before) / len(sources)
	runtime.KeepAlive(documents)
	return taken
}

// A document keeps an array with room for a node for each six bytes of its source, until its nodes are copied.
func TestWhatDocumentsKeep(t *testing.T) {
	var sources []string
	for i := 0; i < 40; i++ {
		sources = append(sources, "{"+strings.Repeat("longer_than_most_names ", 1000)+"}")
	}
	length, nodes := len(sources[0]), 1001
	all := kept(t, sources, func(*Document) {})
	copied := kept(t, sources, func(document *Document) { document.Nodes = append([]Node(nil), document.Nodes...) })
	near := func(found, wanted int) bool { return found > wanted*9/10 && found < wanted*12/10 }
	if !near(all, 64*length/6) || !near(copied, 64*nodes) {
		t.Errorf("%d bytes, and %d with a copy, not some %d and %d", all, copied, 64*length/6, 64*nodes)
	}
	same(t, "the bytes of a node", int(unsafe.Sizeof(Node{})), 64)
}

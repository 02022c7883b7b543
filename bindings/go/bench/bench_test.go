// Package bench measures how fast sources are parsed by this package and by gqlparser.
package bench

import (
	"fmt"
	"os"
	"strings"
	"testing"

	firthnapkin "firthnapkin.example/go"
	"github.com/vektah/gqlparser/v2/ast"
	"github.com/vektah/gqlparser/v2/parser"
)

const small = `query Film($id: ID!) {
  film(id: $id) {
    id
    title
    cast(first: 9) { name, role }
  }
}
`

// Requests from 3 bytes to 1 MB, parsed by either package.
func BenchmarkBoth(b *testing.B) {
	request, err := os.ReadFile("../../request.graphql")
	if err != nil {
		b.Fatal(err)
	}
	sources := []string{"{a}", small}
	for _, count := range []int{1, 3, 17, 170, 1700} {
		sources = append(sources, strings.Repeat(string(request), count))
	}
	for _, source := range sources {
		b.Run(fmt.Sprintf("%d/firthnapkin", len(source)), func(b *testing.B) {
			for i := 0; i < b.N; i++ {
				if _, err := firthnapkin.Parse(source); err != nil {
					b.Fatal(err)
				}
			}
		})
		b.Run(fmt.Sprintf("%d/gqlparser", len(source)), func(b *testing.B) {
			for i := 0; i < b.N; i++ {
				if _, err := parser.ParseQuery(&ast.Source{Input: source}); err != nil {
					b.Fatal(err)
				}
			}
		})
	}
}

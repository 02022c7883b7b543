// Package native has no Go code. Its folder holds the archive and the headers that package firthnapkin is built with: it is a
// package, and imported, since go mod vendor copies the folders of imported packages alone.
package native

// Package aarch64 has no Go code. Its folder holds the archive for arm64, which package firthnapkin is built with there, and is
// imported for the same reason as the folder above it.
package aarch64

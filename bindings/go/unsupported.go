//go:build !(linux && (amd64 || arm64) && cgo)

package firthnapkin

// The archives are for Linux on amd64 and arm64, and cgo links them. Anywhere else the build ends at this name.
var _ = firthnapkin_is_for_linux_on_amd64_or_arm64_and_needs_cgo

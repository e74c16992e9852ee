//go:build !exprlang_pkgconfig

package exprlang

// The library that bin/hosts leaves in hosts/out. With the build tag exprlang_pkgconfig it is the one that pkg-config knows.

// #cgo CFLAGS: -I${SRCDIR}/../../hosts/out/include
// #cgo LDFLAGS: ${SRCDIR}/../../hosts/out/lib/libexprlang.a
import "C"

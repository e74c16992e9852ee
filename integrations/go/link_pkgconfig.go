//go:build exprlang_pkgconfig

package exprlang

// #cgo pkg-config: exprlang
import "C"

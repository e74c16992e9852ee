//go:build !race && !asan

package exprlang

const isInstrumented = false

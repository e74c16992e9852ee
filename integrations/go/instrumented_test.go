//go:build race || asan

package exprlang

// isInstrumented says whether a checker has memory of its own beside that of the program.
const isInstrumented = true

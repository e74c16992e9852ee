package exprlang

import (
	"fmt"
	"os"
	"runtime/debug"
	"testing"
)

// resident returns how many bytes of memory the process has.
func resident(t *testing.T) int {
	debug.FreeOSMemory()
	text, err := os.ReadFile("/proc/self/statm")
	if err != nil {
		t.Skip(err)
	}
	var size, pages int
	fmt.Sscan(string(text), &size, &pages)
	return pages * os.Getpagesize()
}

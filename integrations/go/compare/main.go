//go:build compare

// Says what package exprlang and Go's expr make of the same rows, and what differs.
//
//	compare ROWS RECORDED    counts the rows by what the two make of them. Lists those of which Go's expr makes something else,
//	                         if RECORDED doesn't have them, and those of RECORDED that aren't so. Then the status is 1
//	compare ROWS             lists all of these, as RECORDED has them
//
// `bin/rows --hosts FOLDER` makes FOLDER/rows. Both packages get the same source and the same env. What Go's expr can't compile,
// or lacks a function for, is counted only.
package main

import (
	"errors"
	"fmt"
	"os"
	"reflect"
	"sort"
	"strings"
	"time"

	"exprlang"

	"github.com/antonmedv/expr"
)

// What the two make of a row.
const (
	same        = "the same"
	bothFail    = "an error in both"
	notRead     = "no expression in Go's expr"
	failsThere  = "an error in Go's expr"
	panics      = "a panic in Go's expr"
	failsHere   = "an error here"
	otherValues = "another value"
)

func main() {
	if len(os.Args) < 2 {
		fmt.Fprintln(os.Stderr, "compare ROWS [RECORDED]")
		os.Exit(2)
	}
	recorded := map[string]bool{}
	if len(os.Args) > 2 {
		for _, line := range linesOf(os.Args[2]) {
			recorded[line] = true
		}
	}
	counts, differ := map[string]int{}, 0
	for _, line := range linesOf(os.Args[1]) {
		line = strings.TrimPrefix(line, "%printed ")
		if strings.HasPrefix(line, "%") {
			continue
		}
		class, ours, theirs := comparedRow(strings.Split(line, "\t"))
		counts[class]++
		if class != panics && class != failsHere && class != otherValues {
			continue
		}
		found := fmt.Sprintf("%s => %s | %s", strings.ReplaceAll(line, "\t", " with "), ours, theirs)
		if !recorded[found] {
			differ++
			fmt.Println(found)
		}
		delete(recorded, found)
	}
	for line := range recorded {
		differ++
		fmt.Println("recorded, but not so:", line)
	}
	var said []string
	for _, class := range []string{same, bothFail, notRead, failsThere, panics, failsHere, otherValues} {
		said = append(said, fmt.Sprintf("%d %s", counts[class], class))
	}
	fmt.Fprintln(os.Stderr, "rows: "+strings.Join(said, ", "))
	if len(os.Args) > 2 && differ > 0 {
		os.Exit(1)
	}
}

func linesOf(path string) []string {
	bytes, err := os.ReadFile(path)
	check(err)
	return strings.Split(strings.TrimSuffix(string(bytes), "\n"), "\n")
}

// comparedRow returns what the two make of the words of a row, and their results.
func comparedRow(words []string) (class, ours, theirs string) {
	env := map[string]any{}
	for i := range words {
		words[i] = wire.Replace(words[i])
		name, source, isName := strings.Cut(words[i], "=")
		if i == 0 || !isName {
			continue
		}
		var err error
		if env[name], err = exprlang.Eval(source, nil); err != nil {
			return bothFail, "", ""
		}
	}
	return compared(words[0], env)
}

func check(err error) {
	if err != nil {
		fmt.Fprintln(os.Stderr, err)
		os.Exit(1)
	}
}

// compared returns what the two make of a source, and their results.
func compared(source string, env map[string]any) (class, ours, theirs string) {
	here, err := exprlang.Eval(source, env)
	ours = printed(here)
	var limit *exprlang.LimitError
	failed := err != nil
	if errors.As(err, &limit) {
		ours = "limit: " + string(limit.Limit)
	} else if failed {
		ours = "error: " + firstLine(err)
	}
	defer func() {
		if value := recover(); value != nil {
			class, theirs = panics, fmt.Sprintf("panic: %v", value)
		}
	}()
	program, err := expr.Compile(source)
	if err != nil {
		if failed {
			return bothFail, ours, ""
		}
		return notRead, ours, "compile error: " + firstLine(err)
	}
	there, err := expr.Run(program, env)
	if theirs = printed(there); err != nil {
		theirs = "error: " + firstLine(err)
	}
	switch {
	case failed && err != nil:
		return bothFail, ours, theirs
	case failed:
		return failsHere, ours, theirs
	case err != nil:
		return failsThere, ours, theirs
	case ours == theirs:
		return same, ours, theirs
	}
	return otherValues, ours, theirs
}

func firstLine(err error) string {
	line, _, _ := strings.Cut(err.Error(), "\n")
	return line
}

// printed returns a value as Go has it, with the items of slices of any type, and integers of any width alike.
func printed(value any) string {
	switch value := value.(type) {
	case nil:
		return "nil"
	case string:
		return fmt.Sprintf("%q", value)
	case time.Duration, time.Month, time.Weekday, exprlang.Timezone:
		return fmt.Sprintf("%T(%v)", value, value)
	case time.Time:
		return value.UTC().Format(time.RFC3339Nano)
	}
	it := reflect.ValueOf(value)
	var parts []string
	switch it.Kind() {
	case reflect.Slice, reflect.Array:
		for i := 0; i < it.Len(); i++ {
			parts = append(parts, printed(it.Index(i).Interface()))
		}
		return "[" + strings.Join(parts, ", ") + "]"
	case reflect.Map:
		for each := it.MapRange(); each.Next(); {
			parts = append(parts, printed(each.Key().Interface())+": "+printed(each.Value().Interface()))
		}
		sort.Strings(parts)
		return "{" + strings.Join(parts, ", ") + "}"
	case reflect.Float32, reflect.Float64:
		text := fmt.Sprint(value)
		if !strings.ContainsAny(text, ".eIN") {
			text += ".0"
		}
		return text
	}
	return fmt.Sprint(value)
}

var wire = strings.NewReplacer(`\\`, `\`, `\n`, "\n", `\r`, "\r", `\t`, "\t", `\0`, "\x00", `\%`, "%")

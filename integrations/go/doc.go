// Package exprlang compiles and runs expressions: rules, filters and checks that other people write.
//
//	rule, err := exprlang.Compile("price * count > 100 and not blocked", exprlang.AsBool())
//	large, err := exprlang.Run(rule, map[string]any{"price": 60, "count": 2, "blocked": false})
//
// Its calls have the names of Go's expr: [Compile], [Run], [Eval], [Env], [AsBool], [Function]. The engine is that of the library
// exprlang, which is called by cgo. The page docs/GO.md says what differs from Go's expr.
//
// # Values
//
// A result is nil, a bool, an int, a string, a []byte, a [time.Duration], a [time.Time] in UTC, a [time.Month], a [time.Weekday],
// a [Timezone], a []any, a map[string]any, or a map[any]any if some keys aren't strings.
//
// An env has values of these types but Timezone, and integers of any width, slices, arrays, maps, structs, pointers,
// [encoding/json.Number] and [encoding/json.RawMessage]. A struct is a map of its exported fields, under the name of their tag
// `expr` or else their own. The language has no fractions: a float must be a whole number. A string must be UTF-8.
//
// A run hands in the names that the program reads, and each with all that is in it. The rest of the env may be anything.
//
// # Goroutines
//
// All calls may be made from many goroutines at once, and they may share programs. A call borrows an engine from a pool. There
// are as many engines as calls run at once, of which each compiles a program once. What engines keep of a program goes when the
// program is garbage.
//
// A run takes a thread of the system while it is in the engine. No more than 64 threads, or two for each processor, do so at
// once. Further calls wait.
//
// # Untrusted expressions
//
// A program has the limits of [DefaultLimits], unless an option says otherwise. Then no expression can stall or end your program.
// [RunUsed] says what a run used of them. Bound the length of an expression yourself. The page docs/UNTRUSTED.md says what else to
// bound.
package exprlang

// What the two peers in Go have in common: PROGRAM PART TURNS CODE [NAME=JSON].. does a part so many times. A part is `compile`,
// `run` (one map of names is kept) or `set` (a run with a new map of the names). One that ends in `-typed` tells the compiler the
// types of the names, if it asks for them. The answer goes to standard output, and the nanoseconds of all turns to standard error.
package main

import (
	"encoding/json"
	"fmt"
	"os"
	"strconv"
	"strings"
	"time"
)

// The function of the host that an expression may call.
func twice(number int) int { return 2 * number }

// A number of JSON without a fraction is an int, as a host in Go has it, and not a float64.
func value(read interface{}) interface{} {
	switch it := read.(type) {
	case json.Number:
		number, err := strconv.Atoi(it.String())
		check(err)
		return number
	case []interface{}:
		for i := range it {
			it[i] = value(it[i])
		}
	case map[string]interface{}:
		for name := range it {
			it[name] = value(it[name])
		}
	}
	return read
}

func check(err error) {
	if err != nil {
		fmt.Fprintln(os.Stderr, err)
		os.Exit(1)
	}
}

// The names and values of words NAME=JSON, and the function of the host if the code calls it.
func readNames(code string, typed bool, words []string) map[string]interface{} {
	names := map[string]interface{}{}
	if strings.Contains(code, "twice(") {
		names["twice"] = function(typed)
	}
	for _, word := range words {
		name, text, _ := strings.Cut(word, "=")
		var read interface{}
		reader := json.NewDecoder(strings.NewReader(text))
		reader.UseNumber()
		check(reader.Decode(&read))
		names[name] = value(read)
	}
	return names
}

func turn(part string, turns int, code string, names map[string]interface{}, typed bool, held *peer) {
	for i := 0; i < turns; i++ {
		switch part {
		case "compile":
			prepared(code, names, typed)
		case "set":
			set := make(map[string]interface{}, len(names))
			for name, it := range names {
				set[name] = it
			}
			held.run(set)
		default:
			held.run(names)
		}
	}
}

func main() {
	part, code := os.Args[1], os.Args[3]
	typed := strings.HasSuffix(part, "-typed")
	part = strings.TrimSuffix(part, "-typed")
	turns, err := strconv.Atoi(os.Args[2])
	check(err)
	names := readNames(code, typed, os.Args[4:])
	held := prepared(code, names, typed)
	answer, err := held.run(names)
	check(err)
	start := time.Now()
	turn(part, turns, code, names, typed, held)
	fmt.Fprintln(os.Stderr, time.Since(start).Nanoseconds())
	fmt.Println(answer)
}

package exprlang

import (
	"encoding/json"
	"errors"
	"fmt"
	"math"
	"math/big"
	"reflect"
	"strings"
	"testing"
	"time"
)

type (
	word  string
	short int16
	blob  []byte
	Base  struct{ ID int }
	inner struct{ Low, High int }
	thing struct {
		Base
		*inner
		Name    string `expr:"name"`
		Secret  string `expr:"-"`
		private int
		Tags    []word
		Next    *thing
		F       func() int
	}
)

// Each value is handed in and comes back as the second one, and the language prints it as the third.
func TestValues(t *testing.T) {
	at := time.Date(2024, 3, 2, 10, 0, 0, 500, time.FixedZone("", 7200))
	seven := 7
	link := &thing{Name: "a", Tags: []word{"x"}, inner: &inner{1, 2}, Next: &thing{Base: Base{ID: 3}}}
	for _, it := range []struct {
		in, out any
		printed string
	}{
		{nil, nil, "nil"},
		{true, true, "true"},
		{false, false, "false"},
		{7, 7, "7"},
		{int8(-128), -128, "-128"},
		{int16(7), 7, "7"},
		{int32(7), 7, "7"},
		{int64(math.MinInt64), math.MinInt64, "-9223372036854775808"},
		{uint(7), 7, "7"},
		{uint8(255), 255, "255"},
		{uint16(7), 7, "7"},
		{uint32(math.MaxUint32), math.MaxUint32, "4294967295"},
		{uint64(math.MaxInt64), math.MaxInt64, "9223372036854775807"},
		{uintptr(7), 7, "7"},
		{7.0, 7, "7"},
		{float32(-2), -2, "-2"},
		{json.Number("-12"), -12, "-12"},
		{json.RawMessage(`{"b": [1, null], "a": "x"}`), map[string]any{"a": "x", "b": []any{1, nil}}, `{a: "x", b: [1, nil]}`},
		{short(3), 3, "3"},
		{"", "", `""`},
		{"h\u00e9\x00\n", "h\u00e9\x00\n", "\"h\u00e9\x00\\n\""},
		{word("x"), "x", `"x"`},
		{[]byte("AB\xff"), []byte("AB\xff"), "[65 66 255]"},
		{[]byte(nil), []byte{}, "[]"},
		{blob("A"), []byte("A"), "[65]"},
		{[2]byte{1, 2}, []byte{1, 2}, "[1 2]"},
		{90 * time.Minute, 90 * time.Minute, "5400000000000ns"},
		{at, at.UTC(), "2024-03-02T08:00:00.000000500+00:00"},
		{time.Date(-1, 1, 1, 0, 0, 0, 0, time.UTC), time.Date(-1, 1, 1, 0, 0, 0, 0, time.UTC), "-0001-01-01T00:00:00+00:00"},
		{time.March, time.March, "3"},
		{time.Sunday, time.Sunday, "0"},
		{[]any{1, "a", []int{2}}, []any{1, "a", []any{2}}, `[1, "a", [2]]`},
		{[]string{"a", "b"}, []any{"a", "b"}, `["a", "b"]`},
		{[2]bool{true, false}, []any{true, false}, "[true, false]"},
		{[]int(nil), []any{}, "[]"},
		{map[string]any{"b": 1, "a": nil}, map[string]any{"a": nil, "b": 1}, "{a: nil, b: 1}"},
		{map[word]int{"b": 1, "a": 2}, map[string]any{"a": 2, "b": 1}, "{a: 2, b: 1}"},
		{map[string]int(nil), map[string]any{}, "{}"},
		{map[int]string{20: "b", -1: "a"}, map[any]any{-1: "a", 20: "b"}, `{-1: "a", 20: "b"}`},
		{map[any]any{true: 1, "x": 2, 3: nil, nil: 4, time.Second: 5}, map[any]any{true: 1, "x": 2, 3: nil, nil: 4, time.Second: 5},
			`{nil: 4, true: 1, 3: nil, "x": 2, 1000000000ns: 5}`},
		{&seven, 7, "7"},
		{(*int)(nil), nil, "nil"},
		{error(nil), nil, "nil"},
		{struct{}{}, map[string]any{}, "{}"},
		{link, map[string]any{"ID": 0, "Low": 1, "High": 2, "name": "a", "Tags": []any{"x"},
			"Next": map[string]any{"ID": 3, "name": "", "Tags": []any{}, "Next": nil}},
			`{High: 2, ID: 0, Low: 1, Next: {ID: 3, Next: nil, Tags: [], name: ""}, Tags: ["x"], name: "a"}`},
	} {
		name := fmt.Sprintf("%T", it.in)
		out, err := Eval("x", map[string]any{"x": it.in})
		if err != nil || !reflect.DeepEqual(out, it.out) {
			t.Errorf("%s: %#v, %v, and not %#v", name, out, err, it.out)
		}
		if got := printed(out); got != canonical(it.printed) {
			t.Errorf("%s: the result prints as %s, and not %s", name, got, it.printed)
		}
		// in a list, under another name of a struct, and as an argument and a result of a function
		for _, env := range []any{map[string]any{"x": []any{it.in}}, struct{ x, X any }{nil, []any{it.in}}, map[string][]any{"x": {it.in}}} {
			source := "x[0]"
			if reflect.ValueOf(env).Kind() == reflect.Struct {
				source = "X[0]"
			}
			if out, err := Eval(source, env); err != nil || !reflect.DeepEqual(out, it.out) {
				t.Errorf("%s in %T: %#v, %v, and not %#v", name, env, out, err, it.out)
			}
		}
		same := Function("same", func(params ...any) (any, error) {
			if len(params) != 1 || !reflect.DeepEqual(params[0], it.out) {
				t.Errorf("%s: the arguments are %#v", name, params)
			}
			return it.in, nil
		})
		if out, err := Eval("same(x)", map[string]any{"x": it.in}, same); err != nil || !reflect.DeepEqual(out, it.out) {
			t.Errorf("%s by a function: %#v, %v, and not %#v", name, out, err, it.out)
		}
	}
}

// What the language makes comes back as these values.
func TestResults(t *testing.T) {
	utc := time.Date(2024, 3, 2, 8, 0, 0, 0, time.UTC)
	for source, wanted := range map[string]any{
		"timezone('UTC')":                   Timezone("UTC"),
		"date('2024-03-02T10:00:00+02:00')": utc,
		"date('2024-03-02').Weekday()":      time.Saturday,
		"fromPairs([[timezone('UTC'), 1], ['UTC', 2], [date('2024-03-02T08:00:00Z'), 3], [date('2024-03-02').Month(), 4]])": map[any]any{
			Timezone("UTC"): 1, "UTC": 2, utc: 3, time.March: 4,
		},
		"fromPairs([])": map[any]any{},
		"{a: [[], {}], b: [[1], {c: [{}]}], d: b''}": map[string]any{"a": []any{[]any{}, map[string]any{}}, "b": []any{[]any{1}, map[string]any{"c": []any{map[string]any{}}}}, "d": []byte{}},
	} {
		if out, err := Eval(source, nil); err != nil || !reflect.DeepEqual(out, wanted) {
			t.Errorf("%s: %#v, %v, and not %#v", source, out, err, wanted)
		}
	}
}

// Values that the language doesn't have, and the path to each.
func TestNoValues(t *testing.T) {
	type loop struct{ Next *loop }
	cycle := &loop{}
	cycle.Next = cycle
	list := []any{nil}
	list[0] = list
	type pointer *pointer
	var self pointer
	self = &self
	for _, it := range []struct {
		value   any
		path    string
		message string
	}{
		{1.5, "x", "no fractions"},
		{math.NaN(), "x", "no fractions"},
		{math.Inf(1), "x", "no fractions"},
		{float64(1 << 63), "x", "integers of 64 bits"},
		{uint64(1 << 63), "x", "greater than 9223372036854775807"},
		{json.Number("1.0"), "x", "no fractions"},
		{json.RawMessage(`[1.5]`), "x", "fraction"},
		{json.RawMessage(`[`), "x", ""},
		{[]any{json.RawMessage(`nope`)}, "x", ""},
		{"\xff", "x", "UTF-8"},
		{map[string]any{"\xff": 1}, "x.\xff", "UTF-8"},
		{make(chan int), "x", "chan int"},
		{complex(1, 2), "x", "complex128"},
		{big.NewInt(1), "x", "a big.Int has no exported fields"},
		{func() {}, "x", "func()"},
		{[]any{map[string]any{"a": []float64{1, 2.5}}}, "x[0].a[1]", "2.5"},
		{map[int]any{3: struct{ F any }{1i}}, "x[3].F", "complex128"},
		{map[any]any{[1]int{}: 1}, "x[[0]]", "can't be a key"},
		{map[float64]any{1.5: 1}, "x[1.5]", "no fractions"},
		{map[any]any{1: "a", int64(1): "b"}, "x[1]", "the same value"},
		{Timezone("UTC"), "x", "timezone(..)"},
		{time.UTC, "x", "zone"},
		{time.Month(13), "x", "month 13"},
		{time.Weekday(7), "x", "day 7"},
		{time.Date(10000, 1, 1, 0, 0, 0, 0, time.UTC), "x", ""},
		{[]any{time.Date(-10000, 1, 1, 0, 0, 0, 0, time.UTC)}, "x", ""},
		{cycle, "", "contains itself"},
		{list, "", "contains itself"},
		{self, "", "contains itself"},
	} {
		for _, name := range []string{"x", "$env.x"} {
			_, err := Eval(name, map[string]any{"a": 1, "x": it.value})
			var value *ValueError
			if name != "x" && fmt.Sprint(reflect.TypeOf(it.value)) == "func()" {
				continue // functions of an env aren't in $env
			}
			if !errors.As(err, &value) || it.path != "" && value.Path != it.path || !strings.Contains(value.Message, it.message) {
				t.Errorf("%T in %s: %v", it.value, name, err)
			}
		}
		// what a program doesn't read may be anything
		if out, err := Eval("a", map[string]any{"a": 1, "x": it.value}); out != 1 || err != nil {
			t.Errorf("%T beside: %v, %v", it.value, out, err)
		}
		_, err := Eval("f()", nil, Function("f", func(...any) (any, error) { return it.value, nil }))
		var value *ValueError
		if !errors.As(err, &value) || !strings.HasPrefix(value.Path, "f()") {
			t.Errorf("%T from a function: %v", it.value, err)
		}
	}
}

func TestDeep(t *testing.T) {
	nested := any(1)
	for i := 0; i < deepest; i++ {
		nested = []any{nested}
	}
	out, err := Eval("x", map[string]any{"x": nested})
	if err != nil || !reflect.DeepEqual(out, nested) {
		t.Error(err)
	}
	if _, err := Eval("x", map[string]any{"x": []any{nested}}); err == nil {
		t.Error("the value is too deep")
	}
	out, err = Eval("reduce(1..2000, [#acc], 0)", nil, Unlimited())
	for depth := 0; ; depth++ {
		list, ok := out.([]any)
		if !ok {
			if depth != 2000 || err != nil {
				t.Error(depth, err)
			}
			break
		}
		out = list[0]
	}
}

func TestEnvs(t *testing.T) {
	type env struct {
		A int
		B string `expr:"b"`
		f int
	}
	value := &env{A: 1, B: "x", f: 2}
	for _, it := range []struct {
		source string
		env    any
		wanted any
	}{
		{"A", value, 1},
		{"b", &value, "x"},
		{"b", *value, "x"},
		{"$env", value, map[string]any{"A": 1, "b": "x"}},
		{"$env", map[word]int{"a": 1}, map[string]any{"a": 1}},
		{"$env", map[string]any{"a": 1, "f": func() int { return 1 }}, map[string]any{"a": 1}},
		{"$env", json.RawMessage(`{"a": 1}`), map[string]any{"a": 1}},
		{"$env", nil, map[string]any{}},
		{"$env", map[string]any(nil), map[string]any{}},
		{"$env", (*env)(nil), map[string]any{}},
		{"$env['a b']", map[string]any{"a b": 3}, 3},
		{"let a = 2; a + b", map[string]any{"a": 1, "b": 5}, 7},
	} {
		if out, err := Eval(it.source, it.env); err != nil || !reflect.DeepEqual(out, it.wanted) {
			t.Errorf("%s in %T: %#v, %v, and not %#v", it.source, it.env, out, err, it.wanted)
		}
	}
	for _, env := range []any{1, "x", []int{1}, map[int]int{}, make(chan int), json.RawMessage("[]"), json.RawMessage("")} {
		var value *ValueError
		if _, err := Eval("1", env); !errors.As(err, &value) {
			t.Errorf("an env of %T: %v", env, err)
		}
	}
}

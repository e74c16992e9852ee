package exprlang

// #include "bridge.h"
import "C"

import (
	"encoding/binary"
	"encoding/json"
	"fmt"
	"math"
	"reflect"
	"sort"
	"strconv"
	"time"
	"unicode/utf8"
)

// A Timezone is the name of a zone, as a program returns one. It can't be handed in: hand in its name as a string, and write
// timezone(name) in the expression.
type Timezone string

// The marks of values that cross: bridge.c says how.
const (
	markNil       = C.EXPR_NIL
	markBool      = C.EXPR_BOOL
	markInteger   = C.EXPR_INTEGER
	markString    = C.EXPR_STRING
	markBytes     = C.EXPR_BYTES
	markDuration  = C.EXPR_DURATION
	markDateTime  = C.EXPR_DATETIME
	markTimezone  = C.EXPR_TIMEZONE
	markMonth     = C.EXPR_MONTH
	markWeekday   = C.EXPR_WEEKDAY
	markArray     = C.EXPR_ARRAY
	markMap       = C.EXPR_MAP
	markJSON      = C.BRIDGE_JSON
	markBuilt     = C.BRIDGE_BUILT
	markEnd       = C.BRIDGE_END
	markFunction  = C.BRIDGE_FUNCTION
	markFixedZone = C.BRIDGE_FIXED_ZONE
	markZoneRule  = C.BRIDGE_ZONE_RULE
)

// deepest is how many levels a value may have that is handed in.
const deepest = 1_000

func appendNumber(bytes []byte, number int64) []byte {
	var it [8]byte
	binary.LittleEndian.PutUint64(it[:], uint64(number))
	return append(bytes, it[:]...)
}

func appendText(bytes []byte, text string) []byte {
	return append(appendNumber(bytes, int64(len(text))), text...)
}

// scalar is a value of the language that has no parts, or JSON.
type scalar struct {
	mark     byte
	number   int64
	fraction int64
	text     string
}

func (s scalar) append(bytes []byte) []byte {
	bytes = append(bytes, s.mark)
	switch s.mark {
	case markNil:
		return bytes
	case markString, markBytes, markJSON:
		return appendText(bytes, s.text)
	case markDateTime:
		return appendNumber(appendNumber(bytes, s.number), s.fraction)
	}
	return appendNumber(bytes, s.number)
}

// less orders keys, those of one kind by their values.
func (s scalar) less(other scalar) bool {
	if s.mark != other.mark {
		return s.mark < other.mark
	}
	if s.number != other.number {
		return s.number < other.number
	}
	if s.fraction != other.fraction {
		return s.fraction < other.fraction
	}
	return s.text < other.text
}

func wrong(format string, values ...any) error {
	return &ValueError{Message: fmt.Sprintf(format, values...)}
}

// plainScalar returns the scalar of a value whose type is none of the host's own. It says whether there is one.
func plainScalar(value any) (it scalar, is bool, err error) {
	switch value := value.(type) {
	case nil:
		return scalar{mark: markNil}, true, nil
	case bool:
		if value {
			return scalar{mark: markBool, number: 1}, true, nil
		}
		return scalar{mark: markBool}, true, nil
	case int:
		return scalar{mark: markInteger, number: int64(value)}, true, nil
	case int64:
		return scalar{mark: markInteger, number: value}, true, nil
	case string:
		it, err = textScalar(value)
		return it, true, err
	case []byte:
		return scalar{mark: markBytes, text: string(value)}, true, nil
	case float64:
		it, err = floatScalar(value)
		return it, true, err
	case time.Time:
		return scalar{mark: markDateTime, number: value.Unix(), fraction: int64(value.Nanosecond())}, true, nil
	case time.Duration:
		return scalar{mark: markDuration, number: int64(value)}, true, nil
	case time.Month:
		if value < time.January || value > time.December {
			return it, true, wrong("there is no month %d", int(value))
		}
		return scalar{mark: markMonth, number: int64(value)}, true, nil
	case time.Weekday:
		if value < time.Sunday || value > time.Saturday {
			return it, true, wrong("there is no day %d of the week", int(value))
		}
		return scalar{mark: markWeekday, number: int64(value)}, true, nil
	case json.Number:
		it, err = numberScalar(value)
		return it, true, err
	case json.RawMessage:
		return scalar{mark: markJSON, text: string(value)}, true, nil
	case Timezone:
		return it, true, wrong("a zone can't be handed in: hand in the string %q, and write timezone(..)", string(value))
	case *time.Location:
		return it, true, wrong("a zone can't be handed in: add it by an option, and hand in its name")
	}
	return it, false, nil
}

func textScalar(text string) (scalar, error) {
	if !utf8.ValidString(text) {
		return scalar{}, wrong("the string isn't UTF-8: hand it in as []byte")
	}
	return scalar{mark: markString, text: text}, nil
}

func floatScalar(value float64) (scalar, error) {
	if value != math.Trunc(value) || value < -1<<63 || value >= 1<<63 {
		return scalar{}, wrong("the language has no fractions, and integers of 64 bits only, so %v has no value: hand in cents",
			value)
	}
	return scalar{mark: markInteger, number: int64(value)}, nil
}

func numberScalar(value json.Number) (scalar, error) {
	number, err := strconv.ParseInt(string(value), 10, 64)
	if err != nil {
		return scalar{}, wrong("the language has no fractions, and integers of 64 bits only, so %s has no value: hand in cents",
			value)
	}
	return scalar{mark: markInteger, number: number}, nil
}

// scalarOf returns the scalar of a value. It says whether there is one: arrays and maps have none.
func scalarOf(value reflect.Value) (it scalar, is bool, err error) {
	switch value.Kind() {
	case reflect.Invalid:
		return scalar{mark: markNil}, true, nil
	case reflect.Bool:
		return plainScalar(value.Bool())
	case reflect.Int, reflect.Int8, reflect.Int16, reflect.Int32, reflect.Int64:
		return plainScalar(value.Int())
	case reflect.Uint, reflect.Uint8, reflect.Uint16, reflect.Uint32, reflect.Uint64, reflect.Uintptr:
		if value.Uint() > math.MaxInt64 {
			return it, true, wrong("the integer %d is greater than %d", value.Uint(), math.MaxInt64)
		}
		return plainScalar(int64(value.Uint()))
	case reflect.Float32, reflect.Float64:
		return plainScalar(value.Float())
	case reflect.String:
		return plainScalar(value.String())
	case reflect.Slice:
		if value.Type().Elem().Kind() == reflect.Uint8 {
			return plainScalar(value.Bytes())
		}
		return it, false, nil
	case reflect.Array:
		if value.Type().Elem().Kind() == reflect.Uint8 {
			bytes := make([]byte, value.Len())
			reflect.Copy(reflect.ValueOf(bytes), value)
			return plainScalar(bytes)
		}
		return it, false, nil
	case reflect.Map, reflect.Struct, reflect.Pointer, reflect.Interface:
		return it, false, nil
	}
	return it, true, wrong("the language has no value for %s", described(value.Interface()))
}

// appendValue appends a value that is built, up to its end. A scalar under a name needs not be built.
func appendValue(bytes []byte, value any) ([]byte, error) {
	bytes, err := appendPart(bytes, value, 0)
	return append(bytes, markEnd), err
}

func appendNamed(bytes []byte, name string, value any) ([]byte, error) {
	bytes = appendText(bytes, name)
	it, is, err := plainScalar(value)
	if err != nil {
		return bytes, under(name, err)
	}
	if is && it.mark != markMonth && it.mark != markWeekday {
		return it.append(bytes), nil
	}
	bytes, err = appendValue(append(bytes, markBuilt), value)
	if err != nil {
		return bytes, under(name, err)
	}
	return bytes, nil
}

func appendPart(bytes []byte, value any, depth int) ([]byte, error) {
	it, is, err := plainScalar(value)
	if err != nil {
		return bytes, err
	}
	if is {
		return it.append(bytes), nil
	}
	if depth == deepest {
		return bytes, wrong("the value is deeper than %d levels, or contains itself", deepest)
	}
	switch value := value.(type) {
	case []any:
		for i, item := range value {
			if bytes, err = appendPart(bytes, item, depth+1); err != nil {
				return bytes, under("["+strconv.Itoa(i)+"]", err)
			}
		}
		return appendNumber(append(bytes, markArray), int64(len(value))), nil
	case map[string]any:
		for _, name := range sortedNames(value) {
			if bytes, err = appendPair(bytes, name, value[name], depth); err != nil {
				return bytes, err
			}
		}
		return appendNumber(append(bytes, markMap), int64(len(value))), nil
	}
	return appendReflected(bytes, reflect.ValueOf(value), depth)
}

func sortedNames(of map[string]any) []string {
	names := make([]string, 0, len(of))
	for name := range of {
		names = append(names, name)
	}
	sort.Strings(names)
	return names
}

// appendPair appends a name and its value, as parts of a map.
func appendPair(bytes []byte, name string, value any, depth int) ([]byte, error) {
	key, err := textScalar(name)
	if err == nil {
		bytes, err = appendPart(key.append(bytes), value, depth+1)
	}
	if err != nil {
		return bytes, under(name, err)
	}
	return bytes, nil
}

func appendReflected(bytes []byte, value reflect.Value, depth int) ([]byte, error) {
	it, is, err := scalarOf(value)
	if err != nil {
		return bytes, err
	}
	if is {
		return it.append(bytes), nil
	}
	switch value.Kind() {
	case reflect.Pointer, reflect.Interface:
		if value.IsNil() {
			return append(bytes, markNil), nil
		}
		return appendPart(bytes, value.Elem().Interface(), depth+1)
	case reflect.Struct:
		fields, count := fieldsOf(value.Type()), 0
		if len(fields) == 0 && value.NumField() > 0 {
			return bytes, wrong("%s has no exported fields", described(value.Interface()))
		}
		for _, field := range fields {
			member, has := field.of(value)
			if !has || member.Kind() == reflect.Func {
				continue
			}
			if bytes, err = appendPair(bytes, field.name, member.Interface(), depth); err != nil {
				return bytes, err
			}
			count++
		}
		return appendNumber(append(bytes, markMap), int64(count)), nil
	case reflect.Map:
		return appendMap(bytes, value, depth)
	}
	for i := 0; i < value.Len(); i++ {
		if bytes, err = appendPart(bytes, value.Index(i).Interface(), depth+1); err != nil {
			return bytes, under("["+strconv.Itoa(i)+"]", err)
		}
	}
	return appendNumber(append(bytes, markArray), int64(value.Len())), nil
}

// appendMap appends a map with any keys, which are scalars, in their order.
func appendMap(bytes []byte, value reflect.Value, depth int) ([]byte, error) {
	type pair struct {
		key         scalar
		name, value reflect.Value
	}
	pairs := make([]pair, 0, value.Len())
	for each := value.MapRange(); each.Next(); {
		key, err := keyOf(each.Key())
		if err != nil {
			return bytes, under(step(each.Key()), err)
		}
		pairs = append(pairs, pair{key, each.Key(), each.Value()})
	}
	sort.Slice(pairs, func(i, j int) bool { return pairs[i].key.less(pairs[j].key) })
	var err error
	for i, it := range pairs {
		if i > 0 && it.key == pairs[i-1].key {
			return bytes, under(step(it.name), wrong("another key of the map is the same value of the language"))
		}
		if bytes, err = appendPart(it.key.append(bytes), it.value.Interface(), depth+1); err != nil {
			return bytes, under(step(it.name), err)
		}
	}
	return appendNumber(append(bytes, markMap), int64(len(pairs))), nil
}

// keyOf returns the key of the language that a key of Go is.
func keyOf(value reflect.Value) (scalar, error) {
	if value.Kind() == reflect.Interface {
		value = value.Elem()
	}
	it, is, err := scalar{mark: markNil}, true, error(nil)
	if value.IsValid() {
		it, is, err = plainScalar(value.Interface())
		if !is {
			it, is, err = scalarOf(value)
		}
	}
	if err == nil && (!is || it.mark == markBytes || it.mark == markJSON) {
		err = wrong("%s can't be a key", described(value.Interface()))
	}
	return it, err
}

// step returns how a path goes on at a key.
func step(key reflect.Value) string {
	if key.Kind() == reflect.String {
		return key.String()
	}
	return fmt.Sprintf("[%v]", key)
}

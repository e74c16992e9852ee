package exprlang

// #include "bridge.h"
import "C"

import (
	"encoding/binary"
	"time"
)

// decoded returns the value that bytes begin with, and the bytes behind it.
func decoded(bytes []byte) (any, []byte) {
	mark := bytes[0]
	number, bytes := int(int64(binary.LittleEndian.Uint64(bytes[1:]))), bytes[9:]
	switch mark {
	case markBool:
		return number != 0, bytes
	case markInteger:
		return number, bytes
	case markString:
		return string(bytes[:number]), bytes[number:]
	case markBytes:
		return append([]byte{}, bytes[:number]...), bytes[number:]
	case markTimezone:
		return Timezone(bytes[:number]), bytes[number:]
	case markDuration:
		return time.Duration(number), bytes
	case markDateTime:
		fraction := int64(binary.LittleEndian.Uint64(bytes))
		return time.Unix(int64(number), fraction).UTC(), bytes[8:]
	case markMonth:
		return time.Month(number), bytes
	case markWeekday:
		return time.Weekday(number), bytes
	case markArray:
		items := make([]any, number)
		for i := range items {
			items[i], bytes = decoded(bytes)
		}
		return items, bytes
	case markMap:
		pairs := make(map[string]any, number)
		for i := 0; i < number; i++ {
			var key any
			key, bytes = decoded(bytes)
			pairs[key.(string)], bytes = decoded(bytes)
		}
		return pairs, bytes
	case C.EXPR_KEYED_MAP:
		pairs := make(map[any]any, number)
		for i := 0; i < number; i++ {
			var key any
			key, bytes = decoded(bytes)
			pairs[key], bytes = decoded(bytes)
		}
		return pairs, bytes
	}
	return nil, bytes
}

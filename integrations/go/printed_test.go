package exprlang

import (
	"fmt"
	"regexp"
	"sort"
	"strings"
	"time"
)

// printed returns a value of Go as the language prints it, with the pairs of maps in the order of their texts.
func printed(value any) string {
	switch value := value.(type) {
	case nil:
		return "nil"
	case string:
		return quoted(value)
	case time.Duration:
		return fmt.Sprintf("%dns", int64(value))
	case time.Time:
		return printedTime(value)
	case time.Month:
		return fmt.Sprint(int(value))
	case time.Weekday:
		return fmt.Sprint(int(value))
	case []any:
		items := make([]string, len(value))
		for i := range value {
			items[i] = printed(value[i])
		}
		return "[" + strings.Join(items, ", ") + "]"
	case map[string]any:
		var pairs []string
		for name := range value {
			pairs = append(pairs, name+": "+printed(value[name]))
		}
		return braced(pairs)
	case map[any]any:
		var pairs []string
		for key := range value {
			pairs = append(pairs, printed(key)+": "+printed(value[key]))
		}
		return braced(pairs)
	}
	return fmt.Sprint(value)
}

func braced(pairs []string) string {
	sort.Strings(pairs)
	return "{" + strings.Join(pairs, ", ") + "}"
}

func quoted(text string) string {
	return `"` + strings.NewReplacer("\\", "\\\\", "\n", "\\n", "\r", "\\r", "\t", "\\t", `"`, `\"`).Replace(text) + `"`
}

// printedTime prints a time in UTC, with a fraction of 0, 3, 6 or 9 digits.
func printedTime(at time.Time) string {
	at = at.UTC()
	year, text := at.Year(), at.Format("-01-02T15:04:05")
	switch nanosecond := at.Nanosecond(); {
	case nanosecond == 0:
	case nanosecond%1_000_000 == 0:
		text += fmt.Sprintf(".%03d", nanosecond/1_000_000)
	case nanosecond%1_000 == 0:
		text += fmt.Sprintf(".%06d", nanosecond/1_000)
	default:
		text += fmt.Sprintf(".%09d", nanosecond)
	}
	sign := ""
	if year < 0 {
		sign, year = "-", -year
	}
	return fmt.Sprintf("%s%04d%s+00:00", sign, year, text)
}

// canonical returns what the language printed with the pairs of maps in the order of their texts, and DateTimes in UTC.
func canonical(text string) string {
	made, rest := canonicalPart(text)
	return made + rest
}

var printedDate = regexp.MustCompile(`^(-?\d{4,})-(\d\d)-(\d\d)T(\d\d):(\d\d):(\d\d)(?:\.(\d+))?([+-])(\d\d):(\d\d)`)

// canonicalPart does so with the value that a text begins with, and returns the rest.
func canonicalPart(text string) (made, rest string) {
	switch {
	case strings.HasPrefix(text, `"`):
		end := 1
		for end < len(text) && text[end] != '"' {
			if text[end] == '\\' {
				end++
			}
			end++
		}
		end = min(end+1, len(text))
		return text[:end], text[end:]
	case strings.HasPrefix(text, "["):
		made, rest = "[", text[1:]
		for rest != "" && rest[0] != ']' {
			part, behind := canonicalPart(rest)
			separator := behind[:len(behind)-len(strings.TrimLeft(behind, ", "))]
			made, rest = made+part+separator, behind[len(separator):]
		}
		return made + "]", strings.TrimPrefix(rest, "]")
	case strings.HasPrefix(text, "{"):
		var pairs []string
		for rest = text[1:]; rest != "" && rest[0] != '}'; rest = strings.TrimPrefix(rest, ", ") {
			key, value, isPair := "", "", false
			if rest[0] == '"' {
				key, value = canonicalPart(rest)
				value, isPair = strings.TrimPrefix(value, ": "), true
			} else if key, value, isPair = strings.Cut(rest, ": "); isPair {
				key = canonical(key)
			}
			if !isPair {
				return text, ""
			}
			var part string
			part, rest = canonicalPart(value)
			pairs = append(pairs, key+": "+part)
		}
		return braced(pairs), strings.TrimPrefix(rest, "}")
	}
	if it := printedDate.FindStringSubmatch(text); it != nil {
		numbers := [10]int{}
		for i := range numbers {
			fmt.Sscanf(it[i], "%d", &numbers[i])
		}
		var nanosecond int
		fmt.Sscanf((it[7] + "000000000")[:9], "%d", &nanosecond)
		var hours, minutes int
		fmt.Sscanf(it[9], "%d", &hours)
		fmt.Sscanf(it[10], "%d", &minutes)
		offset := hours*3600 + minutes*60
		if it[8] == "-" {
			offset = -offset
		}
		at := time.Date(numbers[1], time.Month(numbers[2]), numbers[3], numbers[4], numbers[5], numbers[6]-offset, nanosecond, time.UTC)
		return printedTime(at), text[len(it[0]):]
	}
	end := strings.IndexAny(text, ",]}")
	if end < 0 {
		end = len(text)
	}
	return text[:end], text[end:]
}

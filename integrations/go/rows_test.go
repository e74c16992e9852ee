package exprlang

import (
	"errors"
	"os"
	"path/filepath"
	"strings"
	"testing"
)

// The rows of rows/, whose answers come from the original and from people. `bin/rows --hosts FOLDER` makes the files of
// EXPRLANG_ROWS. A result is handed in again too, and must come back as it was.
func TestRows(t *testing.T) {
	folder := os.Getenv("EXPRLANG_ROWS")
	if folder == "" {
		t.Skip("EXPRLANG_ROWS names no folder with rows")
	}
	rows, answers := linesOf(t, filepath.Join(folder, "rows")), linesOf(t, filepath.Join(folder, "answers"))
	if len(rows) != len(answers) || len(rows) < 10_000 {
		t.Fatal(len(rows), "rows,", len(answers), "answers")
	}
	ran, again, stopped, unfit := 0, 0, 0, 0
	for i, line := range rows {
		kind, line := kindOf(line)
		if _, known := rowKinds[kind]; !known {
			continue
		}
		words := strings.Split(line, "\t")
		for j := range words {
			words[j] = unescaped(words[j])
		}
		env := map[string]any{}
		isFit := !strings.Contains(answers[i], "-01:31") // an offset of seconds, which is printed in minutes
		var err error
		for _, word := range words[1:] {
			name, source, _ := strings.Cut(word, "=")
			if env[name], err = evalAnyhow(source, nil, nil); err != nil {
				break
			}
			isFit = isFit && !hasZone(env[name])
		}
		if !isFit {
			unfit++ // a zone can't be handed in, and a DateTime comes back in UTC
			continue
		}
		var result any
		if err == nil {
			result, err = rowKinds[kind](words[0], env, &stopped)
		}
		ran++
		wanted := unescaped(answers[i])
		if got := outcome(result, err); got != wanted && got != canonical(wanted) {
			t.Errorf("row %d: %s is %s, and not %s", i+1, line, got, wanted)
		}
		if err == nil && kind != "names" && !hasZone(result) {
			again++
			if back, err := Eval("x", map[string]any{"x": result}, Unlimited()); outcome(back, err) != outcome(result, nil) {
				t.Errorf("row %d: %s comes back as %s, and not %s", i+1, line, outcome(back, err), outcome(result, nil))
			}
		}
	}
	t.Logf("%d rows, %d of them handed in again, %d stopped at a limit, %d with a name that can't be handed in", ran, again, stopped, unfit)
	if ran < 10_000 || again < 1_000 || stopped == 0 {
		t.Error("too few rows")
	}
}

// How the rows of each kind run.
var rowKinds = map[string]func(source string, env map[string]any, stopped *int) (any, error){
	"":        evalRow,
	"once":    evalRow,
	"printed": evalRow,
	"limited": func(source string, env map[string]any, _ *int) (any, error) {
		return Eval(source, env, WithLimits(Limits{Depth: 100, Size: 10_000}))
	},
	"nest": func(source string, env map[string]any, _ *int) (any, error) { return Eval(source, env, Unlimited()) },
	"names": func(source string, _ map[string]any, _ *int) (any, error) {
		p, err := Compile(source)
		if err != nil {
			return nil, err
		}
		names := strings.Join(p.Names(), " ")
		if p.UsesEnv() {
			names += " with $env"
		}
		return listed(names), nil
	},
}

// listed are names that print as they are.
type listed string

func evalRow(source string, env map[string]any, stopped *int) (any, error) {
	return evalAnyhow(source, env, stopped)
}

// evalAnyhow evaluates within the default limits, or without limits if an expression stops there.
func evalAnyhow(source string, env map[string]any, stopped *int) (any, error) {
	result, err := Eval(source, env)
	var limit *LimitError
	if !errors.As(err, &limit) {
		return result, err
	}
	if stopped != nil {
		*stopped++
	}
	return Eval(source, env, Unlimited())
}

// outcome returns what a row comes to: what is printed, or a word for the error.
func outcome(result any, err error) string {
	var syntax *SyntaxError
	var limit *LimitError
	var failed *Error
	switch {
	case err == nil:
		return printed(result)
	case errors.As(err, &syntax):
		return "!syntax"
	case errors.As(err, &limit):
		return "!" + string(limit.Limit)
	case errors.As(err, &failed):
		return "!" + string(failed.Kind)
	}
	return err.Error()
}

// hasZone says whether a zone is in a value.
func hasZone(value any) bool {
	switch value := value.(type) {
	case Timezone:
		return true
	case []any:
		for _, item := range value {
			if hasZone(item) {
				return true
			}
		}
	case map[string]any:
		for _, item := range value {
			if hasZone(item) {
				return true
			}
		}
	case map[any]any:
		for key, item := range value {
			if hasZone(key) || hasZone(item) {
				return true
			}
		}
	}
	return false
}

// kindOf returns the kind of a row, and the rest of its line.
func kindOf(line string) (kind, rest string) {
	if !strings.HasPrefix(line, "%") {
		return "", line
	}
	kind, rest, _ = strings.Cut(line[1:], " ")
	return kind, rest
}

var wire = strings.NewReplacer(`\\`, `\`, `\n`, "\n", `\r`, "\r", `\t`, "\t", `\0`, "\x00", `\%`, "%")

func unescaped(text string) string { return wire.Replace(text) }

func linesOf(t *testing.T, path string) []string {
	bytes, err := os.ReadFile(path)
	if err != nil {
		t.Fatal(err)
	}
	return strings.Split(strings.TrimSuffix(string(bytes), "\n"), "\n")
}

package exprlang

import (
	"encoding/json"
	"testing"
)

const benchRule = "price * count > 100 and not blocked"

var benchRecord = map[string]any{"price": 60, "count": 2, "blocked": false, "name": "pen", "country": "DE", "id": 7}

func benchProgram(b *testing.B, source string, options ...Option) *Program {
	p, err := Compile(source, options...)
	if err != nil {
		b.Fatal(err)
	}
	b.ReportAllocs()
	b.ResetTimer()
	return p
}

func runs(b *testing.B, p *Program, env any) {
	for i := 0; i < b.N; i++ {
		if _, err := Run(p, env); err != nil {
			b.Fatal(err)
		}
	}
}

func BenchmarkRunMap(b *testing.B) { runs(b, benchProgram(b, benchRule), benchRecord) }

func BenchmarkRunStruct(b *testing.B) {
	type record struct {
		Price   int  `expr:"price"`
		Count   int  `expr:"count"`
		Blocked bool `expr:"blocked"`
	}
	runs(b, benchProgram(b, benchRule), &record{Price: 60, Count: 2})
}

func BenchmarkRunJSON(b *testing.B) {
	text, _ := json.Marshal(benchRecord)
	runs(b, benchProgram(b, benchRule), json.RawMessage(text))
}

func BenchmarkRunFunction(b *testing.B) {
	f := Function("f", func(params ...any) (any, error) { return params[0], nil })
	runs(b, benchProgram(b, "f(price) > 10", f), benchRecord)
}

func BenchmarkRunItems(b *testing.B) { runs(b, benchProgram(b, "filter(1..100, {# % 2 == 0})"), nil) }

func BenchmarkRunParallel(b *testing.B) {
	p := benchProgram(b, benchRule)
	b.RunParallel(func(turns *testing.PB) {
		for turns.Next() {
			if _, err := Run(p, benchRecord); err != nil {
				b.Error(err)
			}
		}
	})
}

func BenchmarkCompile(b *testing.B) {
	b.ReportAllocs()
	for i := 0; i < b.N; i++ {
		if _, err := Compile(benchRule); err != nil {
			b.Fatal(err)
		}
	}
}

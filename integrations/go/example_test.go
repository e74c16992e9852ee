package exprlang_test

import (
	"context"
	"encoding/json"
	"errors"
	"fmt"
	"time"

	"exprlang"
)

func Example() {
	rule, err := exprlang.Compile("price * count > 100 and not blocked", exprlang.AsBool())
	if err != nil {
		fmt.Println(err)
		return
	}
	fmt.Println(exprlang.Run(rule, map[string]any{"price": 60, "count": 2, "blocked": false}))
	fmt.Println(exprlang.Run(rule, map[string]any{"price": 60, "count": 1, "blocked": false}))
	// Output:
	// true <nil>
	// false <nil>
}

func Example_structs() {
	type User struct {
		Name  string `expr:"name"`
		Age   int    `expr:"age"`
		Photo []byte `expr:"-"`
	}
	type Page struct {
		Users []User
	}
	rule, _ := exprlang.Compile("Users | filter(.age >= 18) | map(.name)", exprlang.Env(Page{}))
	fmt.Println(exprlang.Run(rule, Page{Users: []User{{Name: "Ann", Age: 41}, {Name: "Bob", Age: 17}}}))
	// Output: [Ann] <nil>
}

func Example_json() {
	order := json.RawMessage(`{"price": 60, "tags": ["new"]}`)
	fmt.Println(exprlang.Eval("price > 50 and 'new' in tags", order))
	// Output: true <nil>
}

func ExampleCompile_syntaxError() {
	_, err := exprlang.Compile("price >\n * 2")
	var syntax *exprlang.SyntaxError
	if errors.As(err, &syntax) {
		fmt.Println(syntax.Line, syntax.Column, syntax.Offset)
		fmt.Println(syntax.Snippet)
	}
	// Output:
	// 2 2 9
	//  * 2
	//  ^
}

func ExampleEnv() {
	_, err := exprlang.Compile("price > 10 and pirce < 20", exprlang.Env(map[string]any{"price": 0}))
	fmt.Println(err)
	// Output: unknown name pirce
}

func ExampleAllowUndefinedVariables() {
	rule, _ := exprlang.Compile("(status ?? 200) >= 500", exprlang.AllowUndefinedVariables())
	fmt.Println(exprlang.Run(rule, map[string]any{"path": "/"}))
	// Output: false <nil>
}

func ExampleFunction() {
	prices := map[string]int{"pen": 150}
	price := exprlang.Function("price", func(params ...any) (any, error) {
		if len(params) == 1 {
			if name, ok := params[0].(string); ok && prices[name] > 0 {
				return prices[name], nil
			}
		}
		return nil, errors.New("no such article")
	})
	fmt.Println(exprlang.Eval("price('pen') * 3", nil, price))
	fmt.Println(exprlang.Eval("price('ink') * 3", nil, price))
	// Output:
	// 450 <nil>
	// <nil> no such article
}

func ExampleRun_functions() {
	env := map[string]any{
		"double": func(n int) int { return 2 * n },
		"items":  []int{1, 2, 3},
	}
	fmt.Println(exprlang.Eval("map(items, double(#))", env))
	// Output: [2 4 6] <nil>
}

func ExampleRunContext() {
	ctx, cancel := context.WithCancel(context.Background())
	rule, _ := exprlang.Compile("first() + second()", exprlang.Function("first", func(...any) (any, error) {
		cancel()
		return 1, nil
	}))
	_, err := exprlang.RunContext(ctx, rule, nil)
	fmt.Println(err)
	// Output: context canceled
}

func ExampleWithLimits() {
	_, err := exprlang.Eval("all(1..1000, {all(1..1000, {true})})", nil, exprlang.WithLimits(exprlang.Limits{Steps: 10_000}))
	var limit *exprlang.LimitError
	fmt.Println(errors.As(err, &limit), limit.Limit)
	// Output: true steps
}

func ExampleRunUsed() {
	rule, _ := exprlang.Compile("all(prices, {# > 0})")
	most := 0
	for _, prices := range [][]int{{1, 2}, {1, 2, 3, 4, 5, 6, 7, 8}} {
		_, used, err := exprlang.RunUsed(context.Background(), rule, map[string]any{"prices": prices})
		if err == nil && used.Steps > most {
			most = used.Steps
		}
	}
	fmt.Println(most > 8, most < exprlang.DefaultLimits().Steps/10)
	// Output: true true
}

func ExampleNow() {
	morning := time.Date(2024, 3, 1, 9, 0, 0, 0, time.UTC)
	fmt.Println(exprlang.Eval("now().In(timezone('Asia/Kolkata')).Hour()", nil,
		exprlang.Now(func() time.Time { return morning }), exprlang.FixedZone("Asia/Kolkata", 19_800)))
	// Output: 14 <nil>
}

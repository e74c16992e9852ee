// govaluate.
package main

import "github.com/Knetic/govaluate"

type peer struct {
	expression *govaluate.EvaluableExpression
}

func function(typed bool) interface{} { return twice }

func prepared(code string, names map[string]interface{}, typed bool) *peer {
	expression, err := govaluate.NewEvaluableExpression(code)
	check(err)
	return &peer{expression}
}

func (it *peer) run(names map[string]interface{}) (interface{}, error) {
	return it.expression.Evaluate(names)
}

// Go's expr, whose machine is kept from turn to turn. With types, a program is compiled with `expr.Env` of the names, as its users
// do and its own benchmarks; without, the compiler knows no name.
package main

import (
	"github.com/antonmedv/expr"
	"github.com/antonmedv/expr/vm"
)

type peer struct {
	program *vm.Program
	machine vm.VM
}

// A function of this type is called without reflection, if the compiler knows it.
func twiceOf(arguments ...interface{}) interface{} { return twice(arguments[0].(int)) }

func function(typed bool) interface{} {
	if typed {
		return twiceOf
	}
	return twice
}

func prepared(code string, names map[string]interface{}, typed bool) *peer {
	var options []expr.Option
	if typed {
		options = append(options, expr.Env(names))
	}
	program, err := expr.Compile(code, options...)
	check(err)
	return &peer{program: program}
}

func (it *peer) run(names map[string]interface{}) (interface{}, error) {
	return it.machine.Run(it.program, names)
}

package exprlang

import (
	"context"
	"fmt"
	"reflect"
	"runtime/debug"
)

// call makes the call for which a run waits, and goes on with the run. While a function works, its engine doesn't run.
func (e *engine) call(ctx context.Context, p *Program, functions map[string]function) (waits bool, err error) {
	it, bytes := decoded(e.left())
	arguments, _ := decoded(bytes)
	name := it.(string)
	f := p.config.functions[name]
	if f == nil {
		f = functions[name]
	}
	if err := ctx.Err(); err != nil {
		return false, err
	}
	e.pause()
	result, err := safely(ctx, f, arguments.([]any))
	e.resume()
	if err == nil {
		err = ctx.Err()
	}
	if err != nil {
		return false, err
	}
	if e.buffer, err = appendValue(e.buffer[:0], result); err == nil {
		waits, err = e.reply()
	}
	return waits, under(name+"()", err)
}

// safely calls a function, and returns its error or its panic as an Error.
func safely(ctx context.Context, f function, arguments []any) (result any, err error) {
	defer func() {
		if value := recover(); value != nil {
			failed := &PanicError{Value: value, Stack: debug.Stack()}
			err = &Error{Kind: KindEvaluation, Message: failed.Error(), Err: failed}
		}
	}()
	if result, err = f(ctx, arguments); err != nil {
		err = &Error{Kind: KindEvaluation, Message: err.Error(), Err: err}
	}
	return result, err
}

var (
	contextType = reflect.TypeOf((*context.Context)(nil)).Elem()
	errorType   = reflect.TypeOf((*error)(nil)).Elem()
)

// functionOf returns how a function of any type is called. It has one result, or a result and an error. A context.Context as its
// first parameter is that of the run.
func functionOf(value reflect.Value) function {
	of := value.Type()
	return func(ctx context.Context, arguments []any) (any, error) {
		isFallible := of.NumOut() == 2 && of.Out(1) == errorType
		if of.NumOut() != 1 && !isFallible {
			return nil, fmt.Errorf("a function returns a value, or a value and an error, and not %d values", of.NumOut())
		}
		var given []reflect.Value
		if of.NumIn() > 0 && of.In(0) == contextType {
			given = append(given, reflect.ValueOf(ctx))
		}
		first := len(given)
		least := of.NumIn() - first
		if of.IsVariadic() {
			least--
		}
		if len(arguments) < least || len(arguments) > least && !of.IsVariadic() {
			return nil, fmt.Errorf("the function takes %d arguments, found %d", least, len(arguments))
		}
		for i, argument := range arguments {
			wanted := first + i
			parameter := of.In(min(wanted, of.NumIn()-1))
			if of.IsVariadic() && wanted >= of.NumIn()-1 {
				parameter = parameter.Elem()
			}
			it, ok := converted(argument, parameter)
			if !ok {
				return nil, fmt.Errorf("argument %d is %s, not %s", i+1, described(argument), articled(parameter.String()))
			}
			given = append(given, it)
		}
		results := value.Call(given)
		if isFallible && !results[1].IsNil() {
			return nil, results[1].Interface().(error)
		}
		return results[0].Interface(), nil
	}
}

func min(a, b int) int {
	if a < b {
		return a
	}
	return b
}

// converted returns a value of the language as one of a type, if that has it.
func converted(value any, to reflect.Type) (reflect.Value, bool) {
	if value == nil {
		switch to.Kind() {
		case reflect.Interface, reflect.Pointer, reflect.Slice, reflect.Map:
			return reflect.Zero(to), true
		}
		return reflect.Value{}, false
	}
	from := reflect.ValueOf(value)
	if from.Type().AssignableTo(to) {
		return from, true
	}
	it := reflect.New(to).Elem()
	switch value := value.(type) {
	case int:
		if to.PkgPath() == "time" { // a number is no Duration, Month or Weekday
			return it, false
		}
		switch to.Kind() {
		case reflect.Int, reflect.Int8, reflect.Int16, reflect.Int32, reflect.Int64:
			it.SetInt(int64(value))
			return it, !it.OverflowInt(int64(value))
		case reflect.Uint, reflect.Uint8, reflect.Uint16, reflect.Uint32, reflect.Uint64, reflect.Uintptr:
			it.SetUint(uint64(value))
			return it, value >= 0 && !it.OverflowUint(uint64(value))
		case reflect.Float32, reflect.Float64:
			it.SetFloat(float64(value))
			return it, true
		}
	case bool, string:
		if to.Kind() == from.Kind() {
			return from.Convert(to), true
		}
	case []any:
		if to.Kind() != reflect.Slice {
			return it, false
		}
		it.Set(reflect.MakeSlice(to, len(value), len(value)))
		for i := range value {
			item, ok := converted(value[i], to.Elem())
			if !ok {
				return it, false
			}
			it.Index(i).Set(item)
		}
		return it, true
	case map[string]any:
		if to.Kind() != reflect.Map || to.Key().Kind() != reflect.String {
			return it, false
		}
		it.Set(reflect.MakeMapWithSize(to, len(value)))
		for name := range value {
			item, ok := converted(value[name], to.Elem())
			if !ok {
				return it, false
			}
			it.SetMapIndex(reflect.ValueOf(name).Convert(to.Key()), item)
		}
		return it, true
	}
	return it, false
}

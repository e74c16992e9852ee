package exprlang

import (
	"encoding/json"
	"reflect"
	"sort"
	"sync"
)

// A record is the env of a run, as its program reads it.
type record struct {
	program *Program
	isJSON  bool
	json    json.RawMessage
	plain   map[string]any
	// other is a map with string keys or a struct.
	other reflect.Value
}

func newRecord(p *Program, env any) (*record, error) {
	r := &record{program: p}
	switch env := env.(type) {
	case nil:
		return r, nil
	case map[string]any:
		r.plain = env
		return r, nil
	case json.RawMessage:
		r.json, r.isJSON = env, true
		return r, nil
	}
	value := reflect.ValueOf(env)
	for level := 0; level < deepest && value.Kind() == reflect.Pointer && !value.IsNil(); level++ {
		value = value.Elem()
	}
	isMap := value.Kind() == reflect.Map && value.Type().Key().Kind() == reflect.String
	switch {
	case isMap, value.Kind() == reflect.Struct:
		r.other = value
	case value.Kind() != reflect.Pointer || !value.IsNil():
		return nil, wrong("an env is a map with string keys, a struct or nil, not %s", described(env))
	}
	return r, nil
}

// value returns the value of a name.
func (r *record) value(name string) (any, bool) {
	if r.plain != nil {
		value, has := r.plain[name]
		return value, has
	}
	value, has := r.member(name)
	if !has {
		return nil, false
	}
	return value.Interface(), true
}

// member returns the value of a name in a map or a struct.
func (r *record) member(name string) (reflect.Value, bool) {
	switch r.other.Kind() {
	case reflect.Map:
		value := r.other.MapIndex(reflect.ValueOf(name).Convert(r.other.Type().Key()))
		return value, value.IsValid()
	case reflect.Struct:
		for _, field := range fieldsOf(r.other.Type()) {
			if field.name == name {
				return field.of(r.other)
			}
		}
	}
	return reflect.Value{}, false
}

// names returns the names that a run hands in, if the record has them.
func (r *record) names() []string {
	if !r.program.usesEnv {
		return r.program.names
	}
	if r.plain != nil {
		return sortedNames(r.plain)
	}
	var names []string
	for name := range members(r.other) {
		names = append(names, name)
	}
	sort.Strings(names)
	return names
}

// append appends the names that the program reads and their values.
func (r *record) append(bytes []byte) ([]byte, error) {
	if r.isJSON {
		return append(bytes, r.json...), nil
	}
	var err error
	for _, name := range r.names() {
		if value, has := r.handedIn(name); has {
			if bytes, err = appendNamed(bytes, name, value); err != nil {
				return bytes, err
			}
		}
	}
	return bytes, nil
}

// handedIn returns the value of a name, if a run hands it in. A function is left out where the program reads the whole env.
func (r *record) handedIn(name string) (any, bool) {
	value, has := r.value(name)
	return value, has && !(r.program.usesEnv && isFunction(reflect.ValueOf(value)))
}

// crossed returns the name that so many others crossed before, or "".
func (r *record) crossed(number int) string {
	if r.isJSON {
		return ""
	}
	for _, name := range r.names() {
		if _, has := r.handedIn(name); has {
			if number == 0 {
				return name
			}
			number--
		}
	}
	return ""
}

// functions returns the functions of the record that the program calls and the options don't have.
func (r *record) functions() map[string]function {
	var found map[string]function
	if r.isJSON {
		return nil
	}
	for _, name := range r.program.functions {
		if r.program.config.functions[name] != nil {
			continue
		}
		value, has := r.value(name)
		it := reflect.ValueOf(value)
		if !has || !isFunction(it) || it.IsNil() {
			continue
		}
		if found == nil {
			found = map[string]function{}
		}
		found[name] = functionOf(it)
	}
	return found
}

// isFunction says whether a value, or what an interface holds, is a function. It may be nil.
func isFunction(value reflect.Value) bool {
	if value.Kind() == reflect.Interface {
		value = value.Elem()
	}
	return value.Kind() == reflect.Func
}

// namesOf returns the names of an env whose values don't count.
func namesOf(env any) map[string]bool {
	value := reflect.ValueOf(env)
	for level := 0; level < deepest && value.Kind() == reflect.Pointer; level++ {
		if value.IsNil() {
			value = reflect.New(value.Type().Elem())
		}
		value = value.Elem()
	}
	return members(value)
}

// members returns the names of a map or a struct.
func members(value reflect.Value) map[string]bool {
	names := map[string]bool{}
	switch value.Kind() {
	case reflect.Map:
		if value.Type().Key().Kind() == reflect.String {
			for _, key := range value.MapKeys() {
				names[key.String()] = true
			}
		}
	case reflect.Struct:
		for _, field := range fieldsOf(value.Type()) {
			names[field.name] = true
		}
	}
	return names
}

// A field is one of a struct that expressions see, also of a struct that is embedded.
type field struct {
	name  string
	index []int
}

// of returns the field of a struct. It isn't there if an embedded pointer is nil.
func (f field) of(value reflect.Value) (reflect.Value, bool) {
	member, err := value.FieldByIndexErr(f.index)
	return member, err == nil
}

// knownFields has the fields of the types that were asked for.
var knownFields sync.Map

// fieldsOf returns the fields of a type of structs, by their names in an expression: that of the tag `expr`, or else their own.
// Those with the tag "-" are left out.
func fieldsOf(of reflect.Type) []field {
	if found, ok := knownFields.Load(of); ok {
		return found.([]field)
	}
	var fields []field
	for _, it := range reflect.VisibleFields(of) {
		name, isTagged := it.Tag.Lookup("expr")
		if !it.IsExported() || name == "-" || it.Anonymous && !isTagged && isStruct(it.Type) {
			continue
		}
		if name == "" {
			name = it.Name
		}
		fields = append(fields, field{name, it.Index})
	}
	sort.Slice(fields, func(i, j int) bool { return fields[i].name < fields[j].name })
	knownFields.Store(of, fields)
	return fields
}

// isStruct says whether a type is one of structs, or of pointers to structs.
func isStruct(it reflect.Type) bool {
	return it.Kind() == reflect.Struct || it.Kind() == reflect.Pointer && it.Elem().Kind() == reflect.Struct
}

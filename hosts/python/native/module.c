/* Contexts, environments, and the module itself. */
#include "native.h"
#include <stddef.h>

module_state *state_of(PyTypeObject *defining) { return (module_state *)PyType_GetModuleState(defining); }

/* Returns what the module of this very type has, or null without an exception. */
static module_state *state_at(PyTypeObject *type) {
    PyObject *module = PyType_GetModule(type);
    if (module && PyModule_GetDef(module) == &native_def) return (module_state *)PyModule_GetState(module);
    PyErr_Clear();
    return NULL;
}

module_state *state_below(PyTypeObject *type) {
    module_state *state = NULL;
    /* nearly always it is a class of Python over one of these types */
    for (PyTypeObject *base = type; base && !state;) {
        base = (PyTypeObject *)PyType_GetSlot(base, Py_tp_base);
        state = base ? state_at(base) : NULL;
    }
    if (!state) state = state_at(type);
    if (!state) PyErr_SetString(PyExc_TypeError, "the type has no base of exprlang");
    return state;
}

/* --- contexts --- */

static PyObject *context_new(PyTypeObject *type, PyObject *arguments, PyObject *named) {
    (void)arguments, (void)named;
    module_state *state = state_below(type);
    context_object *self = state ? (context_object *)kept_new(type, state, A_CONTEXT) : NULL;
    if (!self) return NULL;
    self->head.is_open = 1;
    self->items = PyDict_New();
    if (!self->items) {
        Py_DECREF(self);
        return NULL;
    }
    return (PyObject *)self;
}

static int context_traverse(PyObject *self, visitproc visit, void *arg) {
    Py_VISIT(((context_object *)self)->items);
    return kept_traverse((kept *)self, visit, arg);
}

/* Empties the dict and not the field, which is never null. */
static int context_clear(PyObject *self) {
    context_object *it = (context_object *)self;
    kept_forget(&it->head);
    if (it->items) PyDict_Clear(it->items);
    return 0;
}

static void context_dealloc(PyObject *self) {
    PyObject_GC_UnTrack(self);
    Py_CLEAR(((context_object *)self)->items);
    kept_freed((kept *)self);
}

static PyObject *context_items(PyObject *self, void *none) {
    (void)none;
    PyObject *items = ((context_object *)self)->items;
    Py_INCREF(items);
    return items;
}

static PyMethodDef context_methods[] = {KEPT_METHODS, {NULL, NULL, 0, NULL}};

static PyGetSetDef context_getters[] = {
    {"_items", context_items, NULL, "A dict of names and of what holds their values.", NULL},
    KEPT_GETTERS,
    {NULL, NULL, NULL, NULL, NULL},
};

static PyType_Slot context_slots[] = {
    {Py_tp_doc, (void *)"What engines keep of a context."},
    {Py_tp_new, (void *)context_new},
    {Py_tp_dealloc, (void *)context_dealloc},
    {Py_tp_traverse, (void *)context_traverse},
    {Py_tp_clear, (void *)context_clear},
    {Py_tp_methods, (void *)context_methods},
    {Py_tp_getset, (void *)context_getters},
    {0, NULL},
};

static PyType_Spec context_spec = {"exprlang._native.Context", (int)sizeof(context_object), 0,
                                   Py_TPFLAGS_DEFAULT | Py_TPFLAGS_BASETYPE | Py_TPFLAGS_HAVE_GC, context_slots};

/* --- environments --- */

/* Adds a part to an engine's environment: a function's name alone, a zone with an offset or a rule, the functions on versions,
 * or the time. */
static int part_added(engine *in, expr_environment to, PyObject *part, expr_status *status) {
    const char *word, *name, *rule;
    Py_ssize_t length, rule_length;
    long long number;
    unsigned long fraction;
    int offset;
    PyObject *kind = PyTuple_Check(part) ? PyTuple_GetItem(part, 0) : NULL;
    if (!kind || !PyUnicode_Check(kind) || !(word = PyUnicode_AsUTF8AndSize(kind, &length))) return -1;
    switch (word[0]) {
    case 'f':
        if (!PyArg_ParseTuple(part, "sy#", &word, &name, &length)) return -1;
        *status = expr_add_name(in->at, to, name, (size_t)length);
        return 0;
    case 'o':
        if (!PyArg_ParseTuple(part, "sy#i", &word, &name, &length, &offset)) return -1;
        *status = expr_add_fixed_zone(in->at, to, name, (size_t)length, offset);
        return 0;
    case 'r':
        if (!PyArg_ParseTuple(part, "sy#y#", &word, &name, &length, &rule, &rule_length)) return -1;
        *status = expr_add_zone_rule(in->at, to, name, (size_t)length, rule, (size_t)rule_length);
        return 0;
    case 'v':
        *status = expr_add_versions(in->at, to);
        return 0;
    default:
        if (!PyArg_ParseTuple(part, "sLk", &word, &number, &fraction)) return -1;
        *status = expr_set_now(in->at, to, number, (uint32_t)fraction);
        return 0;
    }
}

/* Adds all parts. Returns -1, with an exception, if one can't be added. */
static int parts_added(module_state *state, engine *in, expr_environment to, PyObject *parts) {
    Py_ssize_t count = PyTuple_Size(parts);
    for (Py_ssize_t i = 0; i < count; i++) {
        expr_status status = EXPR_OK;
        if (part_added(in, to, PyTuple_GetItem(parts, i), &status) < 0) {
            if (!PyErr_Occurred()) PyErr_SetString(PyExc_TypeError, "a part of an environment is a tuple");
            return -1;
        }
        if (status != EXPR_OK) {
            raise_failed(state, in, status, NULL, NOWHERE);
            return -1;
        }
    }
    return 0;
}

int environment_copied(module_state *state, environment_object *self, engine *in, expr_environment *found) {
    if (kept_checked(&self->head) < 0) return -1;
    const copy *here = kept_copy(&self->head, in);
    if (here) {
        *found = here->it.environment;
        return 0;
    }
    expr_status status = expr_environment_new(in->at, found);
    if (status != EXPR_OK) {
        raise_failed(state, in, status, NULL, NOWHERE);
        return -1;
    }
    if (parts_added(state, in, *found, self->parts) < 0) {
        expr_drop_environment(in->at, *found);
        return -1;
    }
    handle it;
    it.environment = *found;
    return kept_add(&self->head, in, it, NULL);
}

static PyObject *environment_new(PyTypeObject *type, PyObject *arguments, PyObject *named) {
    (void)arguments, (void)named;
    module_state *state = state_below(type);
    return state ? kept_new(type, state, AN_ENVIRONMENT) : NULL;
}

/* Takes what it adds from now on, and has engines drop their copies. */
static int environment_set(environment_object *self, PyObject *arguments) {
    PyObject *parts, *functions, *parts_before = self->parts, *functions_before = self->functions;
    if (!PyArg_ParseTuple(arguments, "OO", &parts, &functions)) return -1;
    if (!PyTuple_Check(parts) || !PyDict_Check(functions)) {
        PyErr_SetString(PyExc_TypeError, "an environment is made of a tuple of parts and a dict of functions");
        return -1;
    }
    Py_INCREF(parts);
    Py_INCREF(functions);
    self->parts = parts;
    self->functions = functions;
    kept_forget(&self->head);
    Py_XDECREF(parts_before);
    Py_XDECREF(functions_before);
    return 0;
}

static PyObject *environment_open(PyObject *self, PyObject *arguments) {
    environment_object *it = (environment_object *)self;
    module_state *state = state_below(Py_TYPE(self));
    if (!state || environment_set(it, arguments) < 0) return NULL;
    engine *in = engine_taken(it->head.engines);
    if (!in) return NULL;
    expr_environment here;
    it->head.is_open = 1;
    int done = environment_copied(state, it, in, &here);
    if (done < 0) it->head.is_open = 0;
    engine_given_back(it->head.engines, in);
    if (done < 0) return NULL;
    Py_RETURN_NONE;
}

static PyObject *environment_replace(PyObject *self, PyObject *arguments) {
    environment_object *it = (environment_object *)self;
    if (kept_checked(&it->head) < 0 || environment_set(it, arguments) < 0) return NULL;
    Py_RETURN_NONE;
}

static int environment_traverse(PyObject *self, visitproc visit, void *arg) {
    Py_VISIT(((environment_object *)self)->parts);
    Py_VISIT(((environment_object *)self)->functions);
    return kept_traverse((kept *)self, visit, arg);
}

static int environment_clear(PyObject *self) {
    environment_object *it = (environment_object *)self;
    it->head.is_open = 0;
    Py_CLEAR(it->parts);
    Py_CLEAR(it->functions);
    return 0;
}

static void environment_dealloc(PyObject *self) {
    PyObject_GC_UnTrack(self);
    environment_clear(self);
    kept_freed((kept *)self);
}

static PyMethodDef environment_methods[] = {
    {"_open", environment_open, METH_VARARGS, "Takes what it adds, and checks it in an engine."},
    {"_replace", environment_replace, METH_VARARGS, "Takes what it adds for later runs."},
    KEPT_METHODS,
    {NULL, NULL, 0, NULL},
};

static PyGetSetDef environment_getters[] = {KEPT_GETTERS, {NULL, NULL, NULL, NULL, NULL}};

static PyType_Slot environment_slots[] = {
    {Py_tp_doc, (void *)"What engines keep of an environment."},
    {Py_tp_new, (void *)environment_new},
    {Py_tp_dealloc, (void *)environment_dealloc},
    {Py_tp_traverse, (void *)environment_traverse},
    {Py_tp_clear, (void *)environment_clear},
    {Py_tp_methods, (void *)environment_methods},
    {Py_tp_getset, (void *)environment_getters},
    {0, NULL},
};

static PyType_Spec environment_spec = {"exprlang._native.Environment", (int)sizeof(environment_object), 0,
                                       Py_TPFLAGS_DEFAULT | Py_TPFLAGS_BASETYPE | Py_TPFLAGS_HAVE_GC, environment_slots};

/* --- the module --- */

/* What the module takes from those beside it: from which one, under which name, and where it goes. */
static const struct {
    const char *module, *name;
    size_t place;
} TAKEN[] = {
    {"_errors", "Error", offsetof(module_state, error)},
    {"_errors", "LimitError", offsetof(module_state, limit_error)},
    {"_errors", "Syntax", offsetof(module_state, syntax)},
    {"_errors", "Unfit", offsetof(module_state, unfit)},
    {"_values", "Month", offsetof(module_state, month)},
    {"_values", "Weekday", offsetof(module_state, weekday)},
    {"_values", "simplified", offsetof(module_state, simplified)},
    {"_values", "too_deep", offsetof(module_state, too_deep)},
    {"_values", "bad_key", offsetof(module_state, bad_key)},
    {"_values", "located", offsetof(module_state, located)},
    {"_values", "key_of", offsetof(module_state, key_of)},
    {"_values", "map_of", offsetof(module_state, map_of)},
    {"_values", "length_of", offsetof(module_state, length_of)},
    {"_values", "moment_of", offsetof(module_state, moment_of)},
    {"_checks", "record", offsetof(module_state, record)},
    {"_checks", "checked_name", offsetof(module_state, checked_name)},
    {"_checks", "checked_utf8", offsetof(module_state, checked_utf8)},
    {"_checks", "checked_missing", offsetof(module_state, checked_missing)},
    {"_checks", "no_environment", offsetof(module_state, no_environment)},
};
#define TAKEN_COUNT (sizeof TAKEN / sizeof *TAKEN)

static PyObject **taken_at(module_state *state, size_t number) {
    return (PyObject **)(void *)((char *)state + TAKEN[number].place);
}

static int type_added(PyObject *module, PyType_Spec *spec, PyTypeObject **type) {
    *type = (PyTypeObject *)PyType_FromModuleAndSpec(module, spec, NULL);
    return *type ? PyModule_AddType(module, *type) : -1;
}

/* Takes from the modules of a package. */
static int all_taken(module_state *state, PyObject *package) {
    for (size_t i = 0; i < TAKEN_COUNT; i++) {
        PyObject *name = PyUnicode_FromFormat("%U.%s", package, TAKEN[i].module);
        PyObject *from = name ? PyImport_Import(name) : NULL;
        *taken_at(state, i) = from ? PyObject_GetAttrString(from, TAKEN[i].name) : NULL;
        Py_XDECREF(from);
        Py_XDECREF(name);
        if (!*taken_at(state, i)) return -1;
    }
    return 0;
}

static int native_exec(PyObject *module) {
    module_state *state = (module_state *)PyModule_GetState(module);
    if (!(state->engines = pool_new())) return -1;
    PyObject *package = PyObject_GetAttrString(module, "__package__");
    int done = !package ? -1 : PyUnicode_Check(package) ? all_taken(state, package) : -1;
    Py_XDECREF(package);
    if (done < 0) {
        if (!PyErr_Occurred()) PyErr_SetString(PyExc_ImportError, "_native is a part of the package exprlang");
        return -1;
    }
    if (type_added(module, &program_spec, &state->program) < 0 || type_added(module, &context_spec, &state->context) < 0 ||
        type_added(module, &environment_spec, &state->environment) < 0)
        return -1;
    return 0;
}

static int native_traverse(PyObject *module, visitproc visit, void *arg) {
    module_state *state = (module_state *)PyModule_GetState(module);
    if (!state) return 0;
    Py_VISIT(state->program);
    Py_VISIT(state->context);
    Py_VISIT(state->environment);
    for (size_t i = 0; i < TAKEN_COUNT; i++) Py_VISIT(*taken_at(state, i));
    return 0;
}

static int native_clear(PyObject *module) {
    module_state *state = (module_state *)PyModule_GetState(module);
    if (!state) return 0;
    Py_CLEAR(state->program);
    Py_CLEAR(state->context);
    Py_CLEAR(state->environment);
    for (size_t i = 0; i < TAKEN_COUNT; i++) Py_CLEAR(*taken_at(state, i));
    return 0;
}

static void native_free(void *module) {
    module_state *state = (module_state *)PyModule_GetState((PyObject *)module);
    if (!state) return;
    native_clear((PyObject *)module);
    pool_released(state->engines);
    state->engines = NULL;
}

static PyObject *native_version(PyObject *module, PyObject *none) {
    (void)module, (void)none;
    return PyUnicode_FromString(expr_version());
}

static PyObject *native_counts(PyObject *module, PyObject *none) {
    (void)none;
    size_t open, idle, copies;
    module_state *state = (module_state *)PyModule_GetState(module);
    pool_counted(state->engines, &open, &idle, &copies);
    return Py_BuildValue("nnn", (Py_ssize_t)open, (Py_ssize_t)idle, (Py_ssize_t)copies);
}

static PyMethodDef native_methods[] = {
    {"version", native_version, METH_NOARGS, "Returns the library's version, kit and sources, and whether it is proved."},
    {"counts", native_counts, METH_NOARGS, "Returns how many engines there are, how many of them are idle, and what they keep."},
    {NULL, NULL, 0, NULL},
};

static PyModuleDef_Slot native_slots[] = {{Py_mod_exec, (void *)native_exec}, {0, NULL}};

struct PyModuleDef native_def = {PyModuleDef_HEAD_INIT,
                                        "exprlang._native",
                                        "What compiles and runs. The module exprlang is over it.",
                                        (Py_ssize_t)sizeof(module_state),
                                        native_methods,
                                        native_slots,
                                        native_traverse,
                                        native_clear,
                                        native_free};

PyMODINIT_FUNC PyInit__native(void) { return PyModuleDef_Init(&native_def); }

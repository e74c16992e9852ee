/* What a run reads: of a record the names alone that the program asks for, but for programs that read all. */
#include "runs.h"
#include <string.h>

int record_found(module_state *state, PyObject *given, record *found) {
    found->kept = NULL;
    found->it = NULL;
    if (given == Py_None) {
        found->kind = NO_RECORD;
        return 0;
    }
    if (PyObject_TypeCheck(given, state->context)) {
        found->kind = A_KEPT_CONTEXT;
        found->kept = (context_object *)given;
        if (kept_checked(&found->kept->head) < 0) return -1;
        given = found->kept->items;
    }
    if (found->kept || PyDict_CheckExact(given)) {
        if (!found->kept) found->kind = A_DICT;
        Py_INCREF(given);
        found->it = given;
        return 0;
    }
    found->it = PyObject_CallFunctionObjArgs(state->record, given, NULL);
    found->kind = found->it && PyDict_CheckExact(found->it) ? A_DICT : A_MAPPING;
    return found->it ? 0 : -1;
}

/* Returns what a record has under a name: a new reference, or null, with an exception if looking fails. */
static PyObject *part_of(module_state *state, const record *from, PyObject *word) {
    if (from->kind == A_MAPPING) {
        PyObject *part = PyObject_CallMethod(from->it, "get", "OO", word, state->unfit);
        if (part == state->unfit) Py_CLEAR(part); /* no value of a record, since no one else has this class */
        return part;
    }
    PyObject *part = PyDict_GetItemWithError(from->it, word);
    Py_XINCREF(part);
    return part;
}

/* Returns the value of a part, and takes the part over: of a Context it is an item that holds the value. */
static PyObject *value_of(const record *from, PyObject *part) {
    if (!part || from->kind != A_KEPT_CONTEXT) return part;
    PyObject *value = PyObject_GetAttrString(part, "value");
    Py_DECREF(part);
    return value;
}

/* Returns the UTF-8 of a name of a record, or null with an exception. */
static const char *name_of(module_state *state, PyObject *word, Py_ssize_t *length) {
    if (PyUnicode_Check(word)) return utf8_of(state, word, length);
    Py_XDECREF(PyObject_CallFunctionObjArgs(state->checked_name, word, NULL));
    if (!PyErr_Occurred()) PyErr_SetString(PyExc_TypeError, "a name of a context is a str");
    return NULL;
}

/* Returns all names of a record and its parts by turns. */
static PyObject *all_of(const record *from) {
    if (from->kind != A_MAPPING) return pairs_of(from->it);
    PyObject *dict = PyDict_New(), *pairs = NULL;
    if (dict && PyDict_Update(dict, from->it) == 0) pairs = pairs_of(dict);
    Py_XDECREF(dict);
    return pairs;
}

/* Puts a part of a record into a context of the engine, and takes it over. `has` is what the context has of a Context. */
static int part_put(run *r, const record *from, expr_context context, PyObject *has, const name *word, PyObject *part) {
    if (has) {
        PyObject *before = PyDict_GetItemWithError(has, word->word);
        if (before == part || (!before && PyErr_Occurred())) {
            Py_DECREF(part);
            return before ? 0 : -1;
        }
    }
    Py_INCREF(part);
    PyObject *value = value_of(from, part);
    int done = value ? value_put(r->state, r->in, context, word->word, word->utf8, word->length, value, r->from) : -1;
    if (done == 0 && has) done = PyDict_SetItem(has, word->word, part);
    Py_XDECREF(value);
    Py_DECREF(part);
    return done;
}

/* Puts the values of names that the program asks for into a context of the engine. Returns 1 if the context has a name of an
 * earlier record that this one lacks. */
static int names_put(run *r, const record *from, expr_context context, PyObject *has) {
    const program *it = r->it;
    for (Py_ssize_t i = 0; i < it->count; i++) {
        PyObject *part = part_of(r->state, from, it->names[i].word);
        if (!part && PyErr_Occurred()) return -1;
        if (!part && !has && r->is_put && r->is_put[i]) return 1;
        if (part && part_put(r, from, context, has, &it->names[i], part) < 0) return -1;
        if (part && !has && r->is_put) r->is_put[i] = 1;
    }
    return 0;
}

/* Puts what the program reads of a record into a context of the engine. Returns 1 as names_put does. */
static int filled(run *r, const record *from, expr_context context, PyObject *has) {
    if (!r->it->uses_env) return names_put(r, from, context, has);
    int done = 0;
    PyObject *all = all_of(from);
    if (!all) return -1;
    for (Py_ssize_t i = 0, count = PyTuple_Size(all); done == 0 && i < count; i += 2) {
        PyObject *part = PyTuple_GetItem(all, i + 1);
        name word = {PyTuple_GetItem(all, i), NULL, 0};
        word.utf8 = name_of(r->state, word.word, &word.length);
        if (!word.utf8) {
            done = -1;
            break;
        }
        Py_INCREF(part);
        done = part_put(r, from, context, has, &word, part);
    }
    Py_DECREF(all);
    return done;
}

int context_copied(run *r, const record *from, expr_context *found) {
    kept *owner = &from->kept->head;
    copy *here = kept_copy(owner, r->in);
    if (!here) {
        handle it;
        expr_status status = expr_context_new(r->in->at, &it.context);
        if (status != EXPR_OK) {
            raise_failed(r->state, r->in, status, NULL, r->from);
            return -1;
        }
        PyObject *has = PyDict_New();
        if (!has) {
            expr_drop_context(r->in->at, it.context);
            return -1;
        }
        if (kept_add(owner, r->in, it, has) < 0) return -1;
        here = kept_copy(owner, r->in);
    }
    PyObject *has = here->values;
    *found = here->it.context;
    Py_INCREF(has);
    int done = filled(r, from, *found, has);
    Py_DECREF(has);
    return done;
}

void context_dropped(run *r) {
    if (r->has_context) expr_drop_context(r->in->at, r->context);
    r->has_context = 0;
}

static int context_begun(run *r) {
    expr_status status = expr_context_new(r->in->at, &r->context);
    if (status != EXPR_OK) {
        raise_failed(r->state, r->in, status, NULL, r->from);
        return -1;
    }
    r->has_context = 1;
    if (r->is_put) memset(r->is_put, 0, (size_t)r->it->count);
    return 0;
}

int context_made(run *r, const record *from) {
    if (!r->is_put || r->it->uses_env || from->kind == NO_RECORD) context_dropped(r);
    int done = 1;
    while (done == 1) {
        if (!r->has_context && context_begun(r) < 0) return -1;
        done = from->kind == NO_RECORD ? 0 : filled(r, from, r->context, NULL);
        if (done != 0) context_dropped(r);
    }
    expr_status status = done == 0 && r->is_nil ? expr_fill_missing(r->in->at, r->compiled, r->context) : EXPR_OK;
    if (status == EXPR_OK) return done;
    raise_failed(r->state, r->in, status, NULL, r->from);
    return -1;
}

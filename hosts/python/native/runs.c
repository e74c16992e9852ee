/* Runs, and the functions that they call. */
#include "runs.h"
#include <string.h>

/* Begins a run: briefly with the GIL, and once more without it if it takes longer. */
static expr_status begun(run *r, expr_context context, expr_answer *answer) {
    program *it = r->it;
    expr_engine *at = r->in->at;
    expr_status status;
    r->is_begun = 1;
    if (!it->is_long) {
        status = engine_bound(r->in, &it->brief);
        if (status == EXPR_OK) status = expr_run(at, r->compiled, r->environment, context, answer);
        int has_more = it->within.is_unlimited || it->within.limits.steps > it->brief.limits.steps;
        if (status != EXPR_LIMIT_STEPS || !has_more) return status;
        it->is_long = 1;
    }
    status = engine_bound(r->in, &it->within);
    if (status != EXPR_OK) return status;
    Py_BEGIN_ALLOW_THREADS
    status = expr_run(at, r->compiled, r->environment, context, answer);
    Py_END_ALLOW_THREADS
    return status;
}

/* Ends a run with the error that a function raised, or with a limit that the run comes to. */
static int refused(run *r, expr_status *status, expr_answer *answer) {
    PyObject *type, *error, *trace, *made = NULL;
    PyErr_Fetch(&type, &error, &trace);
    PyErr_NormalizeException(&type, &error, &trace);
    if (error && trace) PyException_SetTraceback(error, trace);
    PyObject *text = error ? PyObject_Str(error) : NULL, *kind = text ? PyObject_GetAttrString(error, "kind") : NULL;
    PyObject *utf8 = kind ? PyUnicode_AsEncodedString(text, "utf-8", "replace") : NULL;
    char *octets = NULL;
    Py_ssize_t length = 0;
    int goes_on = 0;
    if (utf8 && PyBytes_AsStringAndSize(utf8, &octets, &length) == 0) {
        expr_engine *at = r->in->at;
        *status = engine_bound(r->in, &r->it->within);
        if (*status == EXPR_OK) {
            Py_BEGIN_ALLOW_THREADS
            *status = expr_refuse(at, octets, (size_t)length, answer);
            Py_END_ALLOW_THREADS
        }
        goes_on = *status == EXPR_OK || *status == EXPR_ASKS;
        if (!goes_on && *status == EXPR_EVALUATION && strcmp(expr_message(at), octets) == 0) {
            PyObject *message = r->from.what ? PyUnicode_FromFormat("%s %zd: %U", r->from.what, r->from.number, text) : text;
            if (message == text) Py_INCREF(text);
            made = message ? PyObject_CallFunctionObjArgs(r->state->error, kind, message, NULL) : NULL;
            Py_XDECREF(message);
        } else if (!goes_on) {
            made = error_of(r->state, r->in, *status, NULL, r->from);
        }
    }
    if (made) {
        PyException_SetCause(made, error); /* takes the error over */
        error = NULL;
        raise_made(made);
    }
    Py_XDECREF(utf8);
    Py_XDECREF(kind);
    Py_XDECREF(text);
    Py_XDECREF(type);
    Py_XDECREF(error);
    Py_XDECREF(trace);
    return goes_on ? 0 : -1;
}

/* Calls a function for a run. A Context also says with which exception the run ends, if the function changed what it reads. */
static PyObject *called(run *r, context_object *owner, PyObject *word, PyObject *function, PyObject *arguments, int *is_over) {
    *is_over = 0;
    if (!owner) return PyObject_CallObject(function, arguments);
    PyObject *reads = r->it->uses_env ? Py_None : r->it->words, *value, *fault;
    PyObject *said = PyObject_CallMethod((PyObject *)owner, "_called", "OOOO", word, function, arguments, reads);
    if (!said) return NULL;
    if (!PyArg_ParseTuple(said, "OO", &value, &fault)) {
        Py_DECREF(said);
        return NULL;
    }
    *is_over = fault != Py_None;
    Py_INCREF(value);
    if (*is_over) {
        PyErr_SetObject((PyObject *)Py_TYPE(fault), fault);
        Py_CLEAR(value);
    }
    Py_DECREF(said);
    return value;
}

/* Has a function answer the call that waits, and goes on with the run. */
static int turned(run *r, context_object *owner, expr_status *status, expr_answer *answer) {
    const char *utf8;
    expr_answer asked;
    module_state *state = r->state;
    expr_engine *at = r->in->at;
    *status = expr_asked(at, &utf8, &asked);
    if (*status != EXPR_OK) {
        raise_failed(state, r->in, *status, NULL, r->from);
        return -1;
    }
    PyObject *word = PyUnicode_FromString(utf8), *list = word ? value_read(state, r->in, asked) : NULL;
    PyObject *arguments = list ? PyList_AsTuple(list) : NULL, *value = NULL;
    PyObject *function = arguments && r->functions ? PyDict_GetItemWithError(r->functions, word) : NULL;
    int is_over = 0;
    Py_XDECREF(list);
    if (function) {
        Py_INCREF(function);
        value = called(r, owner, word, function, arguments, &is_over);
        Py_DECREF(function);
    } else if (arguments && !PyErr_Occurred()) {
        PyErr_SetObject(PyExc_KeyError, word);
    }
    Py_XDECREF(arguments);
    int done = -1;
    if (value) {
        done = value_built(state, r->in, value, "what %U returns", word, r->from);
        if (done == 0) *status = engine_bound(r->in, &r->it->within);
        if (done == 0 && *status == EXPR_OK) {
            Py_BEGIN_ALLOW_THREADS
            *status = expr_reply(at, answer);
            Py_END_ALLOW_THREADS
        }
    } else if (function && !is_over && PyErr_ExceptionMatches(state->error) && !PyErr_ExceptionMatches(state->limit_error)) {
        done = refused(r, status, answer);
    }
    Py_XDECREF(value);
    Py_XDECREF(word);
    return done;
}

int run_ended(run *r, context_object *owner, expr_status status, expr_answer *answer) {
    for (int64_t calls = 0; status == EXPR_ASKS; calls++) {
        if (r->it->calls >= 0 && calls >= r->it->calls) {
            const char *why = "the run calls your functions more often than the limit of calls";
            raise_made(error_made(r->state->limit_error, "calls", PyUnicode_FromString(why), r->from));
            return -1;
        }
        if (turned(r, owner, &status, answer) < 0) return -1;
    }
    if (status == EXPR_OK) return 0;
    raise_failed(r->state, r->in, status, NULL, r->from);
    return -1;
}

int checked_bool(run *r, const expr_answer *answer) {
    if (answer->kind == EXPR_BOOL) return 0;
    PyObject *why = PyUnicode_FromFormat("a rule is true or false, but the value here is of the kind %s", kind_word(answer->kind));
    raise_made(error_made(r->state->error, "evaluation", why, r->from));
    return -1;
}

/* Runs in a context, and returns the value, or whether it is true. */
static PyObject *answered(run *r, context_object *owner, expr_context context, int is_rule) {
    expr_answer answer;
    if (run_ended(r, owner, begun(r, context, &answer), &answer) < 0) return NULL;
    if (is_rule && checked_bool(r, &answer) < 0) return NULL;
    return value_read(r->state, r->in, answer);
}

PyObject *run_over(run *r, PyObject *given, int is_rule) {
    record from;
    expr_context kept_one;
    PyObject *value = NULL;
    if (record_found(r->state, given, &from) < 0) return NULL;
    if (from.kind != NO_RECORD && names_known(r) < 0) {
        Py_DECREF(from.it);
        return NULL;
    }
    if (from.kind == A_KEPT_CONTEXT && !r->is_nil) {
        if (context_copied(r, &from, &kept_one) == 0) value = answered(r, from.kept, kept_one, is_rule);
    } else if (from.kind == NO_RECORD && !r->is_nil) {
        value = answered(r, NULL, EXPR_NO_CONTEXT, is_rule);
    } else if (context_made(r, &from) == 0) {
        value = answered(r, from.kept, r->context, is_rule);
    }
    Py_XDECREF(from.it);
    return value;
}

int used_added(run *r, PyObject *list) {
    int64_t numbers[] = {0, 0};
    PyObject *type, *error, *trace;
    if (!r->is_begun) return 0;
    /* a brief run of a program without limits has some, and what it used of these is no one's concern */
    if (!r->it->within.is_unlimited) expr_used(r->in->at, &numbers[0], &numbers[1]);
    PyErr_Fetch(&type, &error, &trace);
    int done = 0;
    for (int i = 0; done == 0 && i < 2; i++) {
        PyObject *number = PyLong_FromLongLong(numbers[i]);
        done = number ? PyList_Append(list, number) : -1;
        Py_XDECREF(number);
    }
    if (done == 0) {
        PyErr_Restore(type, error, trace);
        return 0;
    }
    Py_XDECREF(type);
    Py_XDECREF(error);
    Py_XDECREF(trace);
    return -1;
}

int runs_begun(run *r, PyTypeObject *defining, PyObject *self, PyObject *environment, PyObject *missing, const char *what) {
    r->state = state_of(defining);
    if (!r->state) return -1;
    r->it = (program *)self;
    r->functions = NULL;
    r->is_put = NULL;
    r->has_context = 0;
    r->is_begun = 0;
    r->environment = EXPR_NO_ENVIRONMENT;
    r->is_nil = r->it->is_nil;
    r->from.what = what;
    r->from.number = 0;
    environment_object *host = r->it->environment;
    if (environment != Py_None) {
        if (!PyObject_TypeCheck(environment, r->state->environment)) {
            raise_made(PyObject_CallFunctionObjArgs(r->state->no_environment, environment, NULL));
            return -1;
        }
        host = (environment_object *)environment;
    }
    if (missing != Py_None) {
        PyObject *checked = PyObject_CallFunctionObjArgs(r->state->checked_missing, missing, NULL);
        if (!checked) return -1;
        r->is_nil = PyUnicode_Check(checked) && PyUnicode_CompareWithASCIIString(checked, "nil") == 0;
        Py_DECREF(checked);
    }
    if (!(r->in = engine_taken(r->it->head.engines))) return -1;
    Py_XINCREF(host); /* a program keeps its environment, but it may be gone before the runs end */
    int done = program_compiled(r->state, r->it, r->in, &r->compiled);
    if (done == 0 && host) done = environment_copied(r->state, host, r->in, &r->environment);
    if (done == 0 && host) {
        r->functions = host->functions;
        Py_INCREF(r->functions);
    }
    Py_XDECREF(host);
    if (done < 0) engine_given_back(r->it->head.engines, r->in);
    return done;
}

void runs_ended(run *r) {
    context_dropped(r);
    PyMem_Free(r->is_put);
    engine_given_back(r->it->head.engines, r->in);
    Py_XDECREF(r->functions);
}

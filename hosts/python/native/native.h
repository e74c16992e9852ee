/* The extension exprlang._native: what compiles and runs, over the calls of exprlang.h, by CPython's limited API.
 *
 *     engines.c   the pool of engines, and what engines keep copies of
 *     values.c    how values cross to an engine and back
 *     program.c   programs
 *     records.c   what a run reads
 *     members.c   what a run reads of a JSON line
 *     runs.c      runs, and the functions that they call
 *     lines.c     runs over JSON lines
 *     module.c    contexts, environments, and the module itself
 *
 * All of it is C that is C++ too. Every function needs the GIL, but for the calls of exprlang.h on an engine that is taken. */
#ifndef EXPRLANG_NATIVE_H
#define EXPRLANG_NATIVE_H
#define PY_SSIZE_T_CLEAN
#define Py_LIMITED_API 0x030A0000
#include <Python.h>
#include <exprlang.h>

/* --- the module --- */

/* What the module has, in the order of the table in module.c: types, then classes and functions of the Python modules. Values
 * and faults that are rare go to those functions, so that both ways to run a program share them. */
typedef struct {
    struct pool *engines;
    PyTypeObject *program, *context, *environment;
    PyObject *error, *limit_error, *syntax, *unfit;
    PyObject *month, *weekday;
    PyObject *simplified, *too_deep, *bad_key, *located, *key_of, *map_of, *length_of, *moment_of;
    PyObject *record, *checked_name, *checked_utf8, *checked_missing, *no_environment;
} module_state;

extern struct PyModuleDef native_def;

/* Returns what the module of a type has. It is null, with an exception, while Python takes the module apart. */
module_state *state_of(PyTypeObject *defining);
/* The same of a type that may be a subclass. */
module_state *state_below(PyTypeObject *type);

/* --- engines --- */

/* What programs may take: a set of limits, or none. */
typedef struct {
    int is_unlimited;
    expr_limits limits;
} bounds;

typedef enum { A_PROGRAM, A_CONTEXT, AN_ENVIRONMENT } kind_of_kept;
typedef union {
    expr_program program;
    expr_context context;
    expr_environment environment;
} handle;

/* A handle to drop when the engine is given back. */
typedef struct {
    kind_of_kept kind;
    handle it;
} dropped;

/* An engine of the library. Who has taken it may call it. */
typedef struct {
    expr_engine *at;
    uint64_t number; /* no engine of the pool had it before */
    size_t place;    /* in the pool's table */
    int is_taken;
    int is_lost; /* a handle that was to be dropped could not be noted: the engine goes with it */
    bounds within;
    size_t copies; /* how many handles it has given and not dropped */
    dropped *gone;
    size_t gone_count, gone_room;
} engine;

/* Engines. Idle ones wait for the next run, the one on top first. It lives as long as anybody uses it: the module does, and so
 * does each object that engines keep copies of. */
#define MOST_IDLE 64
typedef struct pool {
    size_t users;
    uint64_t last_number;
    engine **table; /* engines by their places; null where there is none */
    size_t places;
    engine *idle[MOST_IDLE];
    size_t idle_count;
} pool;

pool *pool_new(void);
void pool_released(pool *pool);
/* Says how many engines there are, how many of them wait, and how many copies they keep. */
void pool_counted(const pool *pool, size_t *open, size_t *idle, size_t *copies);
/* Takes an engine. It is null, with an exception, where there is no memory. */
engine *engine_taken(pool *pool);
/* Gives an engine back, with nothing half built. */
void engine_given_back(pool *pool, engine *it);
/* Sets the limits of what an engine compiles and runs from now on. */
expr_status engine_bound(engine *it, const bounds *within);

/* Where an error comes from: a record or a line of many by its number, or nothing, if `what` is null. */
typedef struct {
    const char *what;
    Py_ssize_t number;
} origin;
static const origin NOWHERE = {NULL, 0};

/* Returns the exception of a call that failed, or null with another exception. `at` may be null, but for EXPR_SYNTAX. */
PyObject *error_of(module_state *state, engine *it, expr_status status, const expr_place *at, origin from);
/* Returns an Error of a kind, with a message that PyErr_Format's format makes; it takes the message over. */
PyObject *error_made(PyObject *error, const char *kind, PyObject *message, origin from);
/* Raises an exception, and takes it over. Null leaves the exception that is raised. */
void raise_made(PyObject *exception);
/* Raises the exception of a call that failed. */
void raise_failed(module_state *state, engine *it, expr_status status, const expr_place *at, origin from);

/* A copy in an engine, with the values that a context's copy has: a dict of its items by their names. */
typedef struct {
    uint64_t engine; /* its number, or 0 where there is no copy */
    handle it;
    PyObject *values;
} copy;

/* What engines keep copies of: the head of programs, contexts and environments. */
typedef struct {
    PyObject_HEAD
    pool *engines;
    kind_of_kept kind;
    int is_open;
    copy *copies; /* by the places of engines */
    size_t room;
} kept;

/* The slots of each type that begins with `kept`. */
PyObject *kept_new(PyTypeObject *type, module_state *state, kind_of_kept kind);
int kept_traverse(kept *self, visitproc visit, void *arg);
void kept_forget(kept *self);
void kept_freed(kept *self);
/* Finds an engine's copy, or null. The pointer holds until Python code runs. */
copy *kept_copy(kept *self, const engine *in);
/* Keeps a handle that an engine gave, and takes `values` over. Returns -1 with an exception where there is no memory, after
 * dropping the handle. */
int kept_add(kept *self, engine *in, handle it, PyObject *values);
/* Checks that it is open. Returns -1 with an exception if it isn't. */
int kept_checked(kept *self);
PyObject *kept_close(PyObject *self, PyObject *none);
PyObject *kept_renew(PyObject *self, PyObject *none);
PyObject *kept_is_closed(PyObject *self, void *none);
#define KEPT_METHODS \
    {"_close", kept_close, METH_NOARGS, "Has engines drop their copies, for good."}, \
    {"_renew", kept_renew, METH_NOARGS, "Has engines drop their copies, so that they make new ones when they next need some."}
#define KEPT_GETTERS {"_is_closed", kept_is_closed, NULL, "Whether it was closed.", NULL}

/* --- values --- */

/* Returns the UTF-8 of a str. It is null, with a ValueError, where a half of a surrogate pair has none. */
const char *utf8_of(module_state *state, PyObject *text, Py_ssize_t *length);

/* Builds a value in an engine. An exception says where the fault is: `format` says what the value is, of its name. What was
 * built is dropped then. */
int value_built(module_state *state, engine *in, PyObject *value, const char *format, PyObject *name, origin from);
/* Puts a value under a name of an engine's context. */
int value_put(module_state *state, engine *in, expr_context context, PyObject *name, const char *utf8, Py_ssize_t length,
              PyObject *value, origin from);
/* Returns the value that an engine looks at, of which the answer says the kind. */
PyObject *value_read(module_state *state, engine *in, expr_answer answer);
/* Returns the keys and values of a dict by turns, as they are at one moment. */
PyObject *pairs_of(PyObject *dict);
/* Returns a word for a kind, such as "integer". */
const char *kind_word(expr_kind kind);

/* --- contexts and environments --- */

typedef struct {
    kept head;
    PyObject *items; /* a dict of names and of what holds the value of each, an object with an attribute `value` */
} context_object;

typedef struct {
    kept head;
    PyObject *parts;     /* a tuple of what it adds, as _environment.py says */
    PyObject *functions; /* a dict of names and functions */
} environment_object;

/* Finds or makes an engine's copy of an environment. */
int environment_copied(module_state *state, environment_object *self, engine *in, expr_environment *found);

/* --- programs --- */

extern PyType_Spec program_spec;
#endif

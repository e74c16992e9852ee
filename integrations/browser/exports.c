/* What exprlang.js calls: one engine with one program and one record. Strings are UTF-8 in the module's memory, by their offset
 * and their length in bytes. One that is returned has the length that `length` says, and stays there until the next call. */
#include "exprlang.h"
#include <stdlib.h>
#include <string.h>

#define EXPORT(result, name) __attribute__((export_name(#name))) result name

static expr_engine *engine;
static expr_program program;
static expr_context record;
static expr_environment environment;
static expr_place place;
static expr_answer answer;
static size_t last_length;

static const char *said(const char *text) {
    last_length = text ? strlen(text) : 0;
    return text;
}

EXPORT(char *, room)(size_t size) { return malloc(size ? size : 1); }
EXPORT(void, release)(char *at) { free(at); }
EXPORT(size_t, length)(void) { return last_length; }
EXPORT(const char *, version)(void) { return said(expr_version()); }
EXPORT(const char *, word_of)(expr_status status) { return said(expr_status_word(status)); }
EXPORT(int, is_limit)(expr_status status) { return EXPR_IS_LIMIT(status); }

/* Opens the engine. Nothing else may be called before, but for the version. */
EXPORT(int, open)(void) {
    engine = expr_open();
    return engine && expr_environment_new(engine, &environment) == EXPR_OK && expr_context_new(engine, &record) == EXPR_OK;
}

/* Says why the last call failed. */
EXPORT(const char *, message)(void) { return said(expr_message(engine)); }

/* The limits for untrusted strings, by their place in expr_limits. */
EXPORT(int64_t, untrusted)(unsigned which) {
    const expr_limits *it = &EXPR_LIMITS_UNTRUSTED;
    const int64_t limits[] = {it->nesting, it->patterns, it->steps, it->depth, it->size};
    return which < sizeof limits / sizeof *limits ? limits[which] : -1;
}
EXPORT(expr_status, set_limits)(int64_t nesting, int64_t patterns, int64_t steps, int64_t depth, int64_t size) {
    const expr_limits limits = {sizeof limits, nesting, patterns, steps, depth, size};
    return expr_set_limits(engine, &limits);
}

/* Begins anew with an environment without a time. */
EXPORT(expr_status, unset_now)(void) {
    expr_drop_environment(engine, environment);
    return expr_environment_new(engine, &environment);
}
EXPORT(expr_status, set_now)(int64_t second, uint32_t fraction) {
    return expr_set_now(engine, environment, second, fraction);
}

/* Compiles a string in place of the program. */
EXPORT(expr_status, compile)(const char *text, size_t size) {
    expr_drop_program(engine, program);
    return expr_compile(engine, text, size, &program, &place);
}
/* Where the last string is no expression; the line is 0 if it is one. */
EXPORT(size_t, line)(void) { return place.line; }
EXPORT(size_t, column)(void) { return place.column; }
EXPORT(size_t, byte)(void) { return place.byte; }
/* What the program asks for, each on a line. */
EXPORT(const char *, names)(void) {
    const char *names;
    expr_names(engine, program, NULL, &names);
    return said(names);
}
EXPORT(const char *, functions)(void) {
    const char *names;
    expr_functions(engine, program, NULL, &names);
    return said(names);
}
EXPORT(int, uses_env)(void) {
    int uses;
    expr_uses_env(engine, program, &uses);
    return uses;
}

/* Reads JSON in place of the record. */
EXPORT(expr_status, set_record)(const char *json, size_t size) {
    expr_drop_context(engine, record);
    return expr_context_json(engine, json, size, &record);
}
EXPORT(expr_status, fill_missing)(void) { return expr_fill_missing(engine, program, record); }

/* Runs the program on the record. */
EXPORT(expr_status, run)(void) { return expr_run(engine, program, environment, record, &answer); }
/* The answer: its type, as the language prints it, and as JSON, or null if it has none. */
EXPORT(const char *, type)(void) {
    static const char *const words[] = {
        [EXPR_NIL] = "nil", [EXPR_BOOL] = "Bool", [EXPR_INTEGER] = "Integer", [EXPR_STRING] = "String",
        [EXPR_BYTES] = "Bytes", [EXPR_DURATION] = "Duration", [EXPR_DATETIME] = "DateTime", [EXPR_TIMEZONE] = "Timezone",
        [EXPR_MONTH] = "Month", [EXPR_WEEKDAY] = "Weekday", [EXPR_ARRAY] = "Array", [EXPR_MAP] = "Map",
        [EXPR_KEYED_MAP] = "KeyedMap"};
    return said((unsigned)answer.kind < sizeof words / sizeof *words ? words[answer.kind] : "?");
}
EXPORT(const char *, shown)(void) { return expr_shown(engine, &last_length); }
EXPORT(const char *, json)(void) { return expr_json(engine, &last_length); }

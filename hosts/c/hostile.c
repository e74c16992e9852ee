/* Evaluates the text of a file within limits, for bin/hostile:
 *
 *     hostile run LIMITS FILE [NAME=CODE]..      prints how it ends, and the nanoseconds of compiling and of running it
 *     hostile steps LIMITS FILE [NAME=CODE]..    prints the steps that it takes, at most a sixteenth too many
 *
 * LIMITS are NESTING,PATTERNS,STEPS,DEPTH,SIZE, or `untrusted`. The names' values are made without limits. The end is `value`,
 * `error: WORD` or `stops: LIMIT`. */
#include "exprlang.h"
#include <inttypes.h>
#include <stdio.h>
#include <stdlib.h>
#include <string.h>
#include <time.h>

#define ALONE EXPR_NO_ENVIRONMENT

static int64_t now(void) {
    struct timespec time;
    clock_gettime(CLOCK_MONOTONIC, &time);
    return (int64_t)time.tv_sec * 1000000000 + time.tv_nsec;
}

/* The bytes of a file, which are never freed; null where it can't be read. */
static char *read_file(const char *name, size_t *length) {
    FILE *file = fopen(name, "rb");
    if (!file || fseek(file, 0, SEEK_END)) return NULL;
    *length = (size_t)ftell(file);
    char *bytes = (char *)malloc(*length + 1);
    rewind(file);
    if (!bytes || fread(bytes, 1, *length, file) != *length) return NULL;
    fclose(file);
    return bytes;
}

static int read_limits(const char *words, expr_limits *limits) {
    *limits = EXPR_LIMITS_UNTRUSTED;
    return !strcmp(words, "untrusted") ||
           sscanf(words, "%" SCNd64 ",%" SCNd64 ",%" SCNd64 ",%" SCNd64 ",%" SCNd64, &limits->nesting, &limits->patterns,
                  &limits->steps, &limits->depth, &limits->size) == 5;
}

/* The context of the words NAME=CODE. */
static expr_status context_of(expr_engine *engine, int count, char **words, expr_context *context) {
    expr_status status = expr_context_new(engine, context);
    expr_set_unlimited(engine);
    for (int i = 0; i < count && status == EXPR_OK; i++) {
        char *code = strchr(words[i], '=');
        if (!code) return EXPR_MISUSE;
        status = expr_eval(engine, code + 1, EXPR_Z, ALONE, EXPR_NO_CONTEXT, NULL);
        if (status == EXPR_OK) status = expr_set_looked(engine, *context, words[i], (size_t)(code - words[i]));
    }
    return status;
}

static void say_end(expr_status status, int64_t compiling, int64_t running) {
    static const char *const LIMITS[] = {"nesting", "patterns", "steps", "depth", "size"};
    if (status == EXPR_OK) printf("value");
    else if (EXPR_IS_LIMIT(status)) printf("stops: %s", LIMITS[status - EXPR_LIMIT_NESTING]);
    else printf("error: %s", status == EXPR_MEMORY ? "memory" : expr_status_word(status));
    printf("\t%" PRId64 "\t%" PRId64 "\n", compiling, running);
}

static expr_status run_within(expr_engine *engine, expr_program program, expr_context context, expr_limits limits, int64_t steps) {
    limits.steps = steps;
    expr_set_limits(engine, &limits);
    return expr_run(engine, program, ALONE, context, NULL);
}

/* The least steps within which a program doesn't stop at that limit, at most a sixteenth too many; or those of the limits. */
static int64_t steps_of(expr_engine *engine, expr_program program, expr_context context, expr_limits limits) {
    int64_t too_few = -1, enough = 1;
    while (enough < limits.steps && run_within(engine, program, context, limits, enough) == EXPR_LIMIT_STEPS) {
        too_few = enough;
        enough *= 2;
    }
    if (enough > limits.steps) enough = limits.steps;
    while (enough - too_few > 1 && enough - too_few > enough / 16) {
        int64_t middle = too_few + (enough - too_few) / 2;
        if (run_within(engine, program, context, limits, middle) == EXPR_LIMIT_STEPS) too_few = middle;
        else enough = middle;
    }
    return enough;
}

/* Returns 2 if the words are wrong, and 3 if a name has no value or there is no memory. */
int main(int count, char **words) {
    expr_limits limits;
    expr_program program;
    expr_context context;
    size_t length;
    char *text = count > 3 && read_limits(words[2], &limits) ? read_file(words[3], &length) : NULL;
    int is_steps = text && !strcmp(words[1], "steps");
    if (!text || (!is_steps && strcmp(words[1], "run"))) {
        fputs("hostile: hostile run|steps LIMITS FILE [NAME=CODE]..\n", stderr);
        return 2;
    }
    expr_engine *engine = expr_open();
    if (!engine || context_of(engine, count - 4, words + 4, &context) != EXPR_OK) return 3;
    if (expr_set_limits(engine, &limits) != EXPR_OK) return 3;
    int64_t start = now();
    expr_status status = expr_compile(engine, text, length, &program, NULL);
    int64_t compiled = now();
    if (is_steps) {
        printf("%" PRId64 "\n", status == EXPR_OK ? steps_of(engine, program, context, limits) : 0);
    } else {
        if (status == EXPR_OK) status = expr_run(engine, program, ALONE, context, NULL);
        say_end(status, compiled - start, now() - compiled);
    }
    expr_close(engine);
    return 0;
}

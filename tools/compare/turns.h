/* What the peers in C have in common: PROGRAM PART TURNS CODE [NAME=JSON].. does a part so many times. A part is `compile`,
 * `run` (the names are kept from turn to turn) or `set` (a run, before which the host sets each name anew). The answer goes to
 * standard output, and the nanoseconds of all turns to standard error. It is C, and C++ too. */
#include <inttypes.h>
#include <stdint.h>
#include <stdio.h>
#include <stdlib.h>
#include <string.h>
#include <time.h>

/* A value as a host in C has it. `count` is the length of a string, and the number of items or pairs. A map's values are its
 * items, in the order of its keys. A host's function has `call`. `index` is free for the peer. */
typedef enum { NIL, BOOL, INTEGER, STRING, LIST, MAP, FUNCTION } value_kind;
typedef struct value value;
struct value {
    value_kind kind;
    size_t count;
    int64_t number;
    const char *text;
    const char **keys;
    value *items;
    int64_t (*call)(int64_t);
    void *index;
};

/* The names of the expression, and their values. */
typedef struct {
    const char *name;
    size_t length;
    value it;
} named;
static named names[16];
static size_t name_count;

/* What each peer has: opens the engine, sets the names and compiles; and does a part once. */
static void prepare(const char *part, const char *code);
static void compile_once(const char *code);
static void set_names(void);
static void run_once(void);
/* Runs once and prints the answer. */
static void show(void);

/* The function of the host that an expression may call. */
static int64_t twice(int64_t number) { return 2 * number; }

static void stop(const char *why)
{
    fprintf(stderr, "%s\n", why);
    exit(1);
}

/* --- JSON without escapes, as bin/compare writes it --- */

static char passed(const char **at)
{
    while (strchr(" ,:", **at) && **at) ++*at;
    return **at;
}

static const char *text_read(const char **at, size_t *length)
{
    const char *start = *at + 1, *end = strchr(start, '"');
    char *copy = (char *)calloc((size_t)(end - start) + 1, 1);
    *length = (size_t)(end - start);
    memcpy(copy, start, *length);
    *at = end + 1;
    return copy;
}

static void read_value(const char **at, value *it);

static void read_items(const char **at, value *it)
{
    it->kind = **at == '[' ? LIST : MAP;
    it->items = (value *)calloc(1000, sizeof *it->items);
    it->keys = (const char **)calloc(1000, sizeof *it->keys);
    for (++*at; !strchr("]}", passed(at)); it->count++) {
        size_t length;
        if (it->kind == MAP) it->keys[it->count] = text_read(at, &length);
        read_value(at, it->items + it->count);
    }
    ++*at;
}

static void read_value(const char **at, value *it)
{
    memset(it, 0, sizeof *it);
    switch (passed(at)) {
    case '"':
        it->kind = STRING;
        it->text = text_read(at, &it->count);
        break;
    case '[':
    case '{':
        read_items(at, it);
        break;
    case 't':
    case 'f':
        it->kind = BOOL;
        it->number = **at == 't';
        *at += it->number ? 4 : 5;
        break;
    default: {
        char *end;
        it->kind = INTEGER;
        it->number = strtoll(*at, &end, 10);
        if (end == *at) stop("a value that no peer in C reads");
        *at = end;
    }
    }
}

static void read_names(int count, char **words)
{
    if (count > (int)(sizeof names / sizeof *names)) stop("too many names");
    for (int i = 0; i < count; i++) {
        const char *at = strchr(words[i], '=');
        names[i].name = words[i];
        names[i].length = (size_t)(at - words[i]);
        words[i][names[i].length] = 0;
        ++at;
        read_value(&at, &names[i].it);
    }
    name_count = (size_t)count;
}

int main(int count, char **words)
{
    struct timespec start, end;
    if (count < 4) stop("PART TURNS CODE [NAME=JSON]..");
    const char *part = words[1], *code = words[3];
    long turns = atol(words[2]);
    read_names(count - 4, words + 4);
    prepare(part, code);
    clock_gettime(CLOCK_MONOTONIC, &start);
    if (!strncmp(part, "compile", strlen("compile"))) {
        for (long i = 0; i < turns; i++) compile_once(code);
    } else if (!strncmp(part, "set", strlen("set"))) {
        for (long i = 0; i < turns; i++) {
            set_names();
            run_once();
        }
    } else {
        for (long i = 0; i < turns; i++) run_once();
    }
    clock_gettime(CLOCK_MONOTONIC, &end);
    fprintf(stderr, "%" PRId64 "\n", (int64_t)(end.tv_sec - start.tv_sec) * 1000000000 + (end.tv_nsec - start.tv_nsec));
    show();
    printf("\n");
    return 0;
}

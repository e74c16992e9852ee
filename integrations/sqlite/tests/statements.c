/* Runs the statements of a file with the extension linked in, and prints their values as SQLite's command line does: a bar between
 * values, and a statement's error on stderr. For sanitizers, and for memory that runs out:
 *
 *     statements FILE              prints all values
 *     statements FILE refuse       in the n-th run the n-th malloc, calloc or realloc of the extension returns null, and then again
 *                                  with all from the n-th on: each statement has its value or ends with "out of memory", and
 *                                  afterwards the same connection gives all values
 *
 * Link with -Wl,--wrap=malloc,--wrap=calloc,--wrap=realloc, and with SQLite's shared library, whose own memory stays. */
#include <sqlite3.h>
#include <stdio.h>
#include <stdlib.h>
#include <string.h>

int sqlite3_exprlang_init(sqlite3 *connection, char **why, const struct sqlite3_api_routines *api);

static long left = -1; /* how many calls are granted; below 0: all */
static int from_then_on, was_refused;
void *__real_malloc(size_t size);
void *__real_calloc(size_t count, size_t size);
void *__real_realloc(void *at, size_t size);
void *__wrap_malloc(size_t size);
void *__wrap_calloc(size_t count, size_t size);
void *__wrap_realloc(void *at, size_t size);

static int is_refused(void) {
    if (left < 0) return 0;
    if (left > 0) { left--; return 0; }
    if (!from_then_on) left = -1;
    was_refused = 1;
    return 1;
}
void *__wrap_malloc(size_t size) { return is_refused() ? NULL : __real_malloc(size); }
void *__wrap_calloc(size_t count, size_t size) { return is_refused() ? NULL : __real_calloc(count, size); }
void *__wrap_realloc(void *at, size_t size) { return is_refused() ? NULL : __real_realloc(at, size); }

static void fail(const char *what, const char *why) {
    left = -1;
    printf("statements: %s: %s\n", what, why);
    exit(1);
}

/* What statements have printed. */
static char printed[1 << 16];
static size_t printed_length;
static void print(const char *text) {
    size_t length = strlen(text);
    if (printed_length + length >= sizeof printed) fail("print", "too much");
    memcpy(printed + printed_length, text, length + 1);
    printed_length += length;
}

static void print_row(sqlite3_stmt *statement) {
    for (int i = 0; i < sqlite3_column_count(statement); i++) {
        const char *text = (const char *)sqlite3_column_text(statement, i);
        if (i) print("|");
        if (text) print(text);
    }
    print("\n");
}

/* Runs all statements, and says whether one ran out of memory. Each other error is printed. */
static int run(sqlite3 *connection, const char *text) {
    int is_memory = 0;
    printed_length = 0;
    while (*text) {
        sqlite3_stmt *statement = NULL;
        int status = sqlite3_prepare_v2(connection, text, -1, &statement, &text);
        while (status == SQLITE_OK && statement && (status = sqlite3_step(statement)) == SQLITE_ROW) {
            print_row(statement);
            status = SQLITE_OK;
        }
        if (status == SQLITE_NOMEM) {
            is_memory = 1;
        } else if (status != SQLITE_OK && status != SQLITE_DONE) {
            fprintf(stderr, "Error: %s\n", sqlite3_errmsg(connection));
            if (was_refused) fail("another error", sqlite3_errmsg(connection));
        }
        sqlite3_finalize(statement);
    }
    return is_memory;
}

static sqlite3 *opened(void) {
    sqlite3 *connection;
    if (sqlite3_open(":memory:", &connection) != SQLITE_OK) fail("open", "no memory");
    return connection;
}

/* One run in which memory runs out, and one after it on the same connection. Says whether memory ran out at all. */
static int refuse(const char *text, const char *right, long granted, int then_on) {
    sqlite3 *connection = opened();
    left = granted;
    from_then_on = then_on;
    was_refused = 0;
    int status = sqlite3_exprlang_init(connection, NULL, NULL);
    if (status == SQLITE_OK && !run(connection, text) && strcmp(printed, right) != 0) fail("another value", printed);
    if (status != SQLITE_OK && status != SQLITE_NOMEM) fail("init", sqlite3_errmsg(connection));
    int ran_out = was_refused;
    left = -1;
    was_refused = 0;
    if (status != SQLITE_OK && sqlite3_exprlang_init(connection, NULL, NULL) != SQLITE_OK) fail("init", "no memory");
    sqlite3_exec(connection, "DROP TABLE IF EXISTS orders; DROP TABLE IF EXISTS rules", NULL, NULL, NULL);
    run(connection, text);
    if (strcmp(printed, right) != 0) fail("other values after memory ran out", printed);
    sqlite3_close(connection);
    return ran_out;
}

int main(int count, char **words) {
    static char text[1 << 16], right[sizeof printed];
    FILE *file = count > 1 ? fopen(words[1], "r") : NULL;
    if (!file) return 2;
    text[fread(text, 1, sizeof text - 1, file)] = 0;
    fclose(file);
    sqlite3 *connection = opened();
    if (sqlite3_exprlang_init(connection, NULL, NULL) != SQLITE_OK) fail("init", "no memory");
    run(connection, text);
    sqlite3_close(connection);
    if (count == 2) {
        fputs(printed, stdout);
        return 0;
    }
    memcpy(right, printed, sizeof printed);
    long runs = 0;
    for (int then_on = 0; then_on < 2; then_on++) {
        /* each of the first, and then ever fewer */
        for (long n = 0; refuse(text, right, n, then_on); n += 1 + n / 10) runs++;
    }
    printf("statements: %ld runs in which memory ran out\n", runs);
    return runs < 100;
}

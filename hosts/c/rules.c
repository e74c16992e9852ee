/* A host: compiles a rule once, and runs it over the records of standard input, each a JSON object on a line. */
#include "exprlang.h"
#include <stdio.h>
#include <stdlib.h>

/* Prints what the rule says of a record. */
static void judge(expr_engine *engine, expr_program rule, const char *json, size_t length) {
    expr_context record;
    expr_status status = expr_context_json(engine, json, length, &record);
    if (status == EXPR_OK) status = expr_run(engine, rule, EXPR_NO_ENVIRONMENT, record, NULL);
    if (status == EXPR_OK) printf("%s\n", expr_shown(engine, NULL));
    else printf("%s: %s\n", expr_status_word(status), expr_message(engine));
    expr_drop_context(engine, record);
}

int main(int count, char **words) {
    const char *text = count > 1 ? words[1] : "price * count > 100 and not blocked";
    expr_engine *engine = expr_open();
    expr_program rule;
    expr_place place;
    expr_status status = expr_compile(engine, text, EXPR_Z, &rule, &place);
    if (status != EXPR_OK) {
        printf("%s at line %zu, column %zu\n%s\n", expr_status_word(status), place.line, place.column, expr_message(engine));
        expr_close(engine);
        return 1;
    }
    char *line = NULL;
    size_t room = 0;
    ssize_t length;
    while ((length = getline(&line, &room, stdin)) >= 0) judge(engine, rule, line, (size_t)length);
    free(line);
    expr_close(engine);
    return 0;
}

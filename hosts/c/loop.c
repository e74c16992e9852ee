/* loop WAY COUNT TEXT [NAME=NUMBER].. : so many times compiles TEXT (compile), runs its program among the names (run), does
 * both (eval), writes its program in the normal form (text), or asks the least that there is (ask); within the limits for untrusted
 * expressions, or within none if UNLIMITED is set. Where TEXT is `-`, it is what is on the input. */
#include "exprlang.h"
#include <stdio.h>
#include <stdlib.h>
#include <string.h>
#include <time.h>

static expr_engine *engine;
static expr_program program;
static expr_context context;

/* What is on the input, with a zero byte behind it. */
static char *input(void) {
    size_t length = 0, room = 1 << 20;
    char *text = malloc(room);
    while (text) {
        length += fread(text + length, 1, room - 1 - length, stdin);
        text[length] = 0;
        if (length < room - 1) break;
        room *= 2;
        text = realloc(text, room);
    }
    return text;
}

static int turn(char way, const char *text, size_t length) {
    expr_program one;
    expr_answer answer;
    switch (way) {
    case 'c': return expr_compile(engine, text, length, &one, NULL) || expr_drop_program(engine, one);
    case 'r': return expr_run(engine, program, EXPR_NO_ENVIRONMENT, context, &answer);
    case 't': return expr_program_text(engine, program, NULL, NULL);
    case 'e': return expr_eval(engine, text, length, EXPR_NO_ENVIRONMENT, context, &answer);
    default: return expr_drop_program(engine, (expr_program){0, 0, UINT64_MAX}) != EXPR_UNKNOWN;
    }
}

int main(int count, char **words) {
    if (count < 4) return 2;
    long turns = atol(words[2]);
    const char *text = strcmp(words[3], "-") ? words[3] : input();
    if (!text) return 3;
    size_t length = strlen(text);
    engine = expr_open();
    if (getenv("UNLIMITED")) expr_set_unlimited(engine);
    if (expr_compile(engine, text, length, &program, NULL) || expr_context_new(engine, &context)) return 3;
    for (int i = 4; i < count; i++) {
        char *number = strchr(words[i], '=');
        if (number) expr_set_integer(engine, context, words[i], (size_t)(number - words[i]), atol(number + 1));
    }
    struct timespec a, b;
    clock_gettime(CLOCK_PROCESS_CPUTIME_ID, &a);
    for (long i = 0; i < turns; i++) {
        if (turn(words[1][0], text, length)) return 4;
    }
    clock_gettime(CLOCK_PROCESS_CPUTIME_ID, &b);
    printf("%.0f ns a turn\n", ((b.tv_sec - a.tv_sec) * 1e9 + (b.tv_nsec - a.tv_nsec)) / turns);
    expr_close(engine);
    return 0;
}

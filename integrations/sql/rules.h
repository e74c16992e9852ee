/* What the extensions for databases share: an engine within the limits for untrusted strings, the rules that it has compiled
 * and keeps, and the record that the next run reads.
 *
 *     const rule *found;
 *     expr_status status = rules_find(all, "price > 100", EXPR_Z, &found);
 *     if (status == EXPR_OK) status = rules_begin(all);
 *     if (status == EXPR_OK) status = rules_count(all, SCALAR_WEIGHT);
 *     if (status == EXPR_OK) status = expr_set_integer(all->engine, all->record, "price", EXPR_Z, 120);
 *     if (status == EXPR_OK) status = rules_run(all, found, &answer);
 *     if (status != EXPR_OK) puts(rules_message(all));
 *     rules_end(all);
 *
 * No call here jumps, prints or ends the process. Use one from one thread at a time. */
#ifndef EXPRLANG_RULES_H
#define EXPRLANG_RULES_H
#include "exprlang.h"

#ifdef __cplusplus
extern "C" {
#endif

/* The bounds beside those of the engine. docs/DATABASES.md has them too. */
enum {
    RULE_BYTES = 65536,      /* the longest rule */
    RULES_KEPT = 64,         /* how many compiled rules are kept, */
    KEPT_BYTES = 131072,     /* how many bytes they have together, */
    HEAVY_BYTES = 16384,     /* and for how many bytes one counts whose patterns weigh more than LIGHT_PATTERNS */
    LIGHT_PATTERNS = 10000,
    RECORD_WEIGHT = 1000000, /* what one run may read of a record, by the weights that follow */
    RECORD_DEPTH = 127       /* the record, and arrays and maps one inside another in it */
};

/* What values weigh, as docs/LIMITS.md has it for those of a run. A string's bytes weigh by sixteens. */
enum { SCALAR_WEIGHT = 1, STRING_WEIGHT = 2, ARRAY_WEIGHT = 4, MAP_WEIGHT = 8, PAIR_WEIGHT = 3 };
#define WEIGHT_OF_STRING(bytes) (STRING_WEIGHT + (size_t)(bytes) / 16)

/* A name that a rule reads. */
typedef struct { const char *text; size_t length; } rule_name;

/* A compiled rule. It is there until the next rules_find, rules_forget or rules_close. */
typedef struct {
    expr_program program;
    const char *text; /* with a zero byte behind it */
    size_t length;
    int reads_all;    /* whether it reads $env, the record as a whole */
    size_t name_count;
    const rule_name *names; /* in the order of name_order */
} rule;

typedef struct kept_rule kept_rule;

typedef struct {
    expr_engine *engine;
    expr_context record; /* from rules_begin to rules_end */
    expr_place place;    /* where the last rule that rules_find did not compile has its error; line 0 if nowhere */
    /* what follows is for rules.c alone */
    int has_record, is_begun, has_large_answer;
    size_t weight;
    const char *why;
    char room[200];
    expr_program nil;
    kept_rule *newest, *oldest;
    size_t count, bytes;
    kept_rule *chains[RULES_KEPT];
} rules;

/* Returns a place for rules, or null if there is no memory. */
rules *rules_open(void);
/* Frees all. Null is fine. */
void rules_close(rules *all);
/* Drops all rules that are kept, the record and the answer. */
void rules_forget(rules *all);

/* Finds a rule among those that are kept, or compiles it and keeps it, in place of those that were found longest ago. It ends as
 * expr_compile does, or with EXPR_LIMIT_SIZE for a rule of more than RULE_BYTES. */
expr_status rules_find(rules *all, const char *text, size_t length, const rule **found);
/* Finds a name among those that a rule reads; null if it does not read it. */
const rule_name *rule_reads(const rule *it, const char *name, size_t length);
/* Says how names are ordered: below 0, 0 or above 0. Shorter names come first, and names of one length in byte order. */
int name_order(const char *left, size_t left_length, const char *right, size_t right_length);

/* Begins a record without names. */
expr_status rules_begin(rules *all);
/* Begins a record with the names of a JSON object, which weighs so much. */
expr_status rules_begin_json(rules *all, const char *json, size_t length, size_t weight);
/* Counts what you are about to hand in, by its weight. It is EXPR_LIMIT_SIZE if all of a record weighs more than RECORD_WEIGHT. */
expr_status rules_count(rules *all, size_t weight);
/* Ends a call with an error of the extension: an end of the engine's, and a message that stays there. */
expr_status rules_fail(rules *all, expr_status status, const char *why);
/* Ends a call that did not take the value of a name: its message then begins with the name. Returns the status. */
expr_status rules_fail_at(rules *all, expr_status status, const char *name, size_t length);
/* Runs a rule in the record. The answer is there until rules_end. */
expr_status rules_run(rules *all, const rule *it, expr_answer *answer);
/* Drops the record, and an answer that may be large. It may be called at any time. After EXPR_MEMORY call rules_forget. */
void rules_end(rules *all);
/* Writes the answer as JSON, which is there until the next call; EXPR_EVALUATION if it has none. `length` may be null. */
expr_status rules_json(rules *all, const char **json, size_t *length);
/* Says why the last call failed: one line, or for EXPR_SYNTAX a line of the rule and a caret under the position. */
const char *rules_message(rules *all);
/* Says on one line why rules_find failed, with the line and the column in the rule. It is there until the next call. */
const char *rules_fault(rules *all, expr_status status);

#ifdef __cplusplus
}
#endif
#endif

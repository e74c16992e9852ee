/* exprlang for SQLite, a loadable extension: expr_true, expr_eval and expr_check. docs/DATABASES.md describes them.
 *
 *     expr_true(RULE, JSON)                whether a rule is true of a record
 *     expr_true(RULE, NAME, VALUE, ..)     the same of named values, which may be none
 *     expr_eval(..)                        the value of the rule, with the same arguments
 *     expr_check(RULE)                     the first error of a rule, or null
 *     expr_version()                       the version of the library, and whether it is proved
 *
 * A connection has one engine, within the limits for untrusted strings, and keeps the rules that it compiled last. */
#include <sqlite3ext.h>
#include <stdlib.h>
#include <string.h>
#include "json.h"
#include "rules.h"
SQLITE_EXTENSION_INIT1

#ifndef SQLITE_RESULT_SUBTYPE /* new in SQLite 3.45; older ones ignore it */
#define SQLITE_RESULT_SUBTYPE 0x001000000
#endif
/* The subtype by which SQLite's own functions tell JSON from other strings. */
#define JSON_SUBTYPE 'J'

/* The rules of a connection, for as many functions as use them. */
typedef struct { rules *all; int users; } shared;

static void drop_shared(void *at) {
    shared *of = (shared *)at;
    if (--of->users > 0) return;
    rules_close(of->all);
    free(of);
}

static void fail(sqlite3_context *call, rules *all, expr_status status) {
    if (status == EXPR_MEMORY) {
        rules_forget(all);
        sqlite3_result_error_nomem(call);
        return;
    }
    char *why = sqlite3_mprintf("exprlang: %s", all->place.line ? rules_fault(all, status) : rules_message(all));
    if (!why) {
        sqlite3_result_error_nomem(call);
        return;
    }
    sqlite3_result_error(call, why, -1);
    if (EXPR_IS_LIMIT(status)) sqlite3_result_error_code(call, SQLITE_TOOBIG);
    sqlite3_free(why);
}

/* --- records in JSON --- */

/* Whether a number of JSON is an integer that strtoll reads as the library does, which takes no -0. */
static int is_short_integer(const char *number, size_t length) {
    if (length > 18 || (number[0] == '-' && number[1] == '0')) return 0;
    for (size_t i = number[0] == '-'; i < length; i++) {
        if (number[i] < '0' || number[i] > '9') return 0;
    }
    return 1;
}

/* Hands in a value of JSON, whose form was looked at, under a name. */
static expr_status set_json(rules *all, const rule_name *name, const char *json, size_t length) {
    expr_engine *engine = all->engine;
    switch (json[0]) {
    case 'n': return expr_set_nil(engine, all->record, name->text, name->length);
    case 't':
    case 'f': return expr_set_bool(engine, all->record, name->text, name->length, json[0] == 't');
    case '"':
        if (memchr(json, '\\', length)) break;
        return expr_set_string(engine, all->record, name->text, name->length, json + 1, length - 2);
    default:
        if (!is_short_integer(json, length)) break;
        return expr_set_integer(engine, all->record, name->text, name->length, strtoll(json, NULL, 10));
    }
    expr_status status = expr_set_json(engine, all->record, name->text, name->length, json, length);
    return rules_fail_at(all, status, name->text, name->length);
}

/* Hands in the next pair of a record if the rule reads its name: 1, or 0 if the record is left to the library, which reads it as
 * a whole: the record is no JSON, or the name has an escape. */
static int read_pair(rules *all, const rule *it, json_scan *scan, expr_status *status) {
    int is_plain;
    json_pass_space(scan);
    const char *name = scan->at + 1;
    if (!json_pass_string(scan, &is_plain) || !is_plain) return 0;
    const rule_name *read = rule_reads(it, name, (size_t)(scan->at - 1 - name));
    json_pass_space(scan);
    if (!json_pass(scan, ':')) return 0;
    json_pass_space(scan);
    const char *value = scan->at;
    size_t weight = scan->weight;
    if (!json_pass_value(scan, RECORD_DEPTH - 1)) return 0;
    if (read) *status = rules_count(all, scan->weight - weight);
    if (read && *status == EXPR_OK) *status = set_json(all, read, value, (size_t)(scan->at - value));
    json_pass_space(scan);
    return 1;
}

/* Hands in the names of a record that a rule reads: 1, or 0 as read_pair has it. */
static int read_names(rules *all, const rule *it, json_scan *scan, expr_status *status) {
    *status = rules_begin(all);
    json_pass_space(scan);
    if (!json_pass(scan, '{')) return 0;
    json_pass_space(scan);
    if (!json_pass(scan, '}')) {
        do {
            if (*status != EXPR_OK) return 1;
            if (!read_pair(all, it, scan, status)) return 0;
        } while (json_pass(scan, ','));
        if (!json_pass(scan, '}')) return 0;
    }
    json_pass_space(scan);
    return scan->at == scan->end;
}

static expr_status read_json(rules *all, const rule *it, const char *json, size_t length) {
    expr_status status = EXPR_OK;
    json_scan scan = {json, json + length, 0}, whole = scan;
    if (!it->reads_all && read_names(all, it, &scan, &status)) return status;
    /* what is no JSON weighs what the library reads of it, up to where its form ends */
    json_pass_value(&whole, RECORD_DEPTH);
    return rules_begin_json(all, json, length, whole.weight);
}

/* --- named values --- */

static expr_status set_value(rules *all, const rule_name *name, sqlite3_value *value) {
    expr_engine *engine = all->engine;
    int kind = sqlite3_value_type(value);
    if (kind == SQLITE_NULL) return expr_set_nil(engine, all->record, name->text, name->length);
    if (kind == SQLITE_INTEGER) {
        return expr_set_integer(engine, all->record, name->text, name->length, sqlite3_value_int64(value));
    }
    int is_json = kind == SQLITE_FLOAT || (kind == SQLITE_TEXT && sqlite3_value_subtype(value) == JSON_SUBTYPE);
    const char *bytes = (const char *)(kind == SQLITE_BLOB ? sqlite3_value_blob(value) : sqlite3_value_text(value));
    size_t length = (size_t)sqlite3_value_bytes(value);
    if (!bytes && (length > 0 || kind != SQLITE_BLOB)) return rules_fail(all, EXPR_MEMORY, "out of memory");
    if (is_json) {
        if (kind == SQLITE_FLOAT && strchr(bytes, 'I')) { /* SQLite writes Inf and -Inf, which JSON lacks */
            rules_fail(all, EXPR_EVALUATION, "infinity is no value of the language");
            return rules_fail_at(all, EXPR_EVALUATION, name->text, name->length);
        }
        json_scan scan = {bytes, bytes + length, 0};
        json_pass_value(&scan, RECORD_DEPTH - 1);
        expr_status status = rules_count(all, scan.weight);
        if (status == EXPR_OK) status = expr_set_json(engine, all->record, name->text, name->length, bytes, length);
        return rules_fail_at(all, status, name->text, name->length);
    }
    expr_status status = rules_count(all, WEIGHT_OF_STRING(length));
    if (status != EXPR_OK) return status;
    if (kind == SQLITE_BLOB) return expr_set_bytes(engine, all->record, name->text, name->length, bytes, length);
    return expr_set_string(engine, all->record, name->text, name->length, bytes, length);
}

static expr_status read_values(rules *all, const rule *it, int count, sqlite3_value **values) {
    expr_status status = rules_begin(all);
    for (int i = 0; i + 1 < count && status == EXPR_OK; i += 2) {
        if (sqlite3_value_type(values[i]) != SQLITE_TEXT) return rules_fail(all, EXPR_MISUSE, "a name is not a string");
        rule_name name = {(const char *)sqlite3_value_text(values[i]), (size_t)sqlite3_value_bytes(values[i])};
        if (!name.text) return rules_fail(all, EXPR_MEMORY, "out of memory");
        if (it->reads_all || rule_reads(it, name.text, name.length)) status = set_value(all, &name, values[i + 1]);
    }
    return status;
}

/* --- answers --- */

static expr_status return_answer(sqlite3_context *call, rules *all, const expr_answer *answer) {
    const char *made;
    size_t length;
    expr_status status;
    switch (answer->kind) {
    case EXPR_NIL: sqlite3_result_null(call); return EXPR_OK;
    case EXPR_BOOL:
    case EXPR_INTEGER:
    case EXPR_DURATION:
    case EXPR_MONTH:
    case EXPR_WEEKDAY: sqlite3_result_int64(call, answer->number); return EXPR_OK;
    case EXPR_BYTES: sqlite3_result_blob64(call, answer->text, (sqlite3_uint64)answer->number, SQLITE_TRANSIENT); return EXPR_OK;
    case EXPR_STRING:
        sqlite3_result_text64(call, answer->text, (sqlite3_uint64)answer->number, SQLITE_TRANSIENT, SQLITE_UTF8);
        return EXPR_OK;
    case EXPR_TIMEZONE: sqlite3_result_text(call, answer->text, -1, SQLITE_TRANSIENT); return EXPR_OK;
    default: break;
    }
    status = rules_json(all, &made, &length);
    if (status != EXPR_OK) return status;
    if (answer->kind == EXPR_DATETIME) { /* a string in quotes, without escapes */
        sqlite3_result_text64(call, made + 1, length - 2, SQLITE_TRANSIENT, SQLITE_UTF8);
    } else {
        sqlite3_result_text64(call, made, length, SQLITE_TRANSIENT, SQLITE_UTF8);
        sqlite3_result_subtype(call, JSON_SUBTYPE);
    }
    return EXPR_OK;
}

/* --- the functions --- */

static rules *rules_of(sqlite3_context *call) { return ((shared *)sqlite3_user_data(call))->all; }

/* Finds the rule that is an argument. */
static expr_status find(rules *all, sqlite3_value *value, const rule **it) {
    const char *rule_text = (const char *)sqlite3_value_text(value);
    if (!rule_text) return rules_fail(all, EXPR_MEMORY, "out of memory");
    return rules_find(all, rule_text, (size_t)sqlite3_value_bytes(value), it);
}

/* Hands in the record or the named values behind the rule. */
static expr_status read_arguments(rules *all, const rule *it, int count, sqlite3_value **values) {
    if (count != 1) return read_values(all, it, count, values);
    const char *json = (const char *)sqlite3_value_text(values[0]);
    if (!json) return rules_fail(all, EXPR_MEMORY, "out of memory");
    return read_json(all, it, json, (size_t)sqlite3_value_bytes(values[0]));
}

static void run(sqlite3_context *call, int count, sqlite3_value **values, int wants_truth) {
    rules *all = rules_of(call);
    const rule *it;
    expr_answer answer;
    if (count == 0 || (count > 2 && count % 2 == 0)) {
        sqlite3_result_error(call, "exprlang: write a rule and a record in JSON, or a rule and pairs of a name and a value", -1);
        return;
    }
    if (sqlite3_value_type(values[0]) == SQLITE_NULL || (count == 2 && sqlite3_value_type(values[1]) == SQLITE_NULL)) return;
    expr_status status = find(all, values[0], &it);
    if (status == EXPR_OK) status = read_arguments(all, it, count - 1, values + 1);
    if (status == EXPR_OK) status = rules_run(all, it, &answer);
    if (status == EXPR_OK && wants_truth && answer.kind != EXPR_BOOL) {
        status = rules_fail(all, EXPR_EVALUATION, "the value of the rule is not a boolean");
    }
    if (status == EXPR_OK) status = return_answer(call, all, &answer);
    if (status != EXPR_OK) fail(call, all, status);
    rules_end(all);
}

static void expr_true_of(sqlite3_context *call, int count, sqlite3_value **values) { run(call, count, values, 1); }

static void expr_eval_of(sqlite3_context *call, int count, sqlite3_value **values) { run(call, count, values, 0); }

static void expr_check_of(sqlite3_context *call, int count, sqlite3_value **values) {
    rules *all = rules_of(call);
    const rule *it;
    (void)count;
    if (sqlite3_value_type(values[0]) == SQLITE_NULL) return;
    expr_status status = find(all, values[0], &it);
    if (status == EXPR_MEMORY) fail(call, all, status);
    else if (status != EXPR_OK) sqlite3_result_text(call, rules_fault(all, status), -1, SQLITE_TRANSIENT);
}

static void expr_version_of(sqlite3_context *call, int count, sqlite3_value **values) {
    (void)count;
    (void)values;
    sqlite3_result_text(call, expr_version(), -1, SQLITE_STATIC);
}

#ifdef __cplusplus
extern "C"
#endif
int sqlite3_exprlang_init(sqlite3 *connection, char **why, const sqlite3_api_routines *api) {
    static const struct { const char *name; int count; void (*call)(sqlite3_context *, int, sqlite3_value **); } FUNCTIONS[] = {
        {"expr_true", -1, expr_true_of},
        {"expr_eval", -1, expr_eval_of},
        {"expr_check", 1, expr_check_of},
        {"expr_version", 0, expr_version_of},
    };
    const int flags = SQLITE_UTF8 | SQLITE_DETERMINISTIC | SQLITE_INNOCUOUS | SQLITE_SUBTYPE | SQLITE_RESULT_SUBTYPE;
    SQLITE_EXTENSION_INIT2(api);
    (void)why;
    shared *of = (shared *)malloc(sizeof *of);
    if (!of) return SQLITE_NOMEM;
    of->users = 1;
    of->all = rules_open();
    int status = of->all ? SQLITE_OK : SQLITE_NOMEM;
    for (size_t i = 0; i < sizeof FUNCTIONS / sizeof *FUNCTIONS && status == SQLITE_OK; i++) {
        of->users++; /* a function that can not be made is dropped too */
        status = sqlite3_create_function_v2(connection, FUNCTIONS[i].name, FUNCTIONS[i].count, flags, of, FUNCTIONS[i].call,
                                            NULL, NULL, drop_shared);
    }
    drop_shared(of);
    return status;
}

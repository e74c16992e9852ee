/* exprlang for PostgreSQL: expr_true(rule, record), expr_eval(rule, record) and expr_check(rule), over jsonb.
 *
 * A backend has one engine, within the limits for untrusted strings, and keeps the rules that it compiled last. An error of
 * PostgreSQL jumps: it passes over no frame of the library, since the library calls nothing of PostgreSQL, and whatever the
 * engine holds then is dropped by rules_end, in PG_FINALLY. */
#ifdef __cplusplus
extern "C" {
#endif
#include "postgres.h"
#include "fmgr.h"
#include "mb/pg_wchar.h"
#include "miscadmin.h"
#include "tcop/tcopprot.h"
#include "utils/builtins.h"
#include "utils/jsonb.h"
#include "utils/numeric.h"
#ifdef __cplusplus
}
#endif
#include "rules.h"

#ifdef __cplusplus
extern "C" {
#endif
PG_MODULE_MAGIC;
PG_FUNCTION_INFO_V1(exprlang_true);
PG_FUNCTION_INFO_V1(exprlang_eval);
PG_FUNCTION_INFO_V1(exprlang_check);
PG_FUNCTION_INFO_V1(exprlang_version);
#ifdef __cplusplus
}
#endif

/* Stack that a call of the library takes at most within its limits, in bytes; exprlang.h has the number. */
#define LIBRARY_STACK 1048576L
/* The longest rule that an error shows, in bytes. */
#define SHOWN_BYTES 1000

static rules *backend; /* null until the first call */

/* Makes sure that the library can be called: what it needs is there, and stack enough is left. */
static void begin_call(void) {
    long stack = get_stack_depth_rlimit();
    check_stack_depth();
    if (stack > 0 && stack - max_stack_depth * 1024L < LIBRARY_STACK) {
        ereport(ERROR, (errcode(ERRCODE_INSUFFICIENT_RESOURCES),
                        errmsg("exprlang needs 1 MB of stack beyond max_stack_depth"),
                        errhint("Raise the limit of the operating system (ulimit -s), or lower max_stack_depth.")));
    }
    if (backend) return;
    if (GetDatabaseEncoding() != PG_UTF8) {
        ereport(ERROR, (errcode(ERRCODE_FEATURE_NOT_SUPPORTED), errmsg("exprlang needs a database with the encoding UTF8")));
    }
    backend = rules_open();
    if (!backend) ereport(ERROR, (errcode(ERRCODE_OUT_OF_MEMORY), errmsg("out of memory")));
}

static int sqlstate_of(expr_status status) {
    if (EXPR_IS_LIMIT(status)) return ERRCODE_PROGRAM_LIMIT_EXCEEDED;
    switch (status) {
    case EXPR_SYNTAX: return ERRCODE_SYNTAX_ERROR;
    case EXPR_LITERAL: return ERRCODE_NUMERIC_VALUE_OUT_OF_RANGE;
    case EXPR_EVALUATION: return ERRCODE_DATA_EXCEPTION;
    case EXPR_PATTERN: return ERRCODE_INVALID_REGULAR_EXPRESSION;
    case EXPR_MEMORY: return ERRCODE_OUT_OF_MEMORY;
    default: return ERRCODE_INTERNAL_ERROR;
    }
}

/* Shows the rule in an error, and where in it the error is, if that is known. */
static int show_rule(const text *rule_text, const expr_place *place) {
    const char *start = VARDATA_ANY(rule_text);
    int length = (int)VARSIZE_ANY_EXHDR(rule_text);
    if (length > SHOWN_BYTES) {
        return place->line ? errdetail("Line %zu, column %zu of the rule.", place->line, place->column) : 0;
    }
    internalerrquery(text_to_cstring(rule_text));
    return place->line ? internalerrposition(pg_mbstrlen_with_len(start, (int)place->byte) + 1) : 0;
}

static void fail(expr_status status, const text *rule_text) pg_attribute_noreturn();

/* Raises the error with which a call on a rule ended. */
static void fail(expr_status status, const text *rule_text) {
    expr_place place = backend->place;
    char *why = status == EXPR_SYNTAX ? pstrdup("the rule has a syntax error") : pstrdup(rules_message(backend));
    if (status == EXPR_MEMORY) rules_forget(backend);
    ereport(ERROR, (errcode(sqlstate_of(status)), errmsg("%s", why), show_rule(rule_text, &place)));
}

/* --- the record --- */

static expr_status push_container(JsonbContainer *container);

static expr_status push_numeric(Numeric number) {
    char *digits;
    if (DatumGetInt32(DirectFunctionCall1(numeric_scale, NumericGetDatum(number))) == 0) {
        bool fails;
        int32 whole = numeric_int4_opt_error(number, &fails);
        if (!fails) return expr_push_integer(backend->engine, whole);
    }
    digits = DatumGetCString(DirectFunctionCall1(numeric_out, NumericGetDatum(number)));
    return expr_push_json(backend->engine, digits, EXPR_Z); /* the library says which numbers it takes */
}

static expr_status push_value(const JsonbValue *value) {
    expr_engine *engine = backend->engine;
    expr_status status;
    if (value->type == jbvBinary) return push_container(value->val.binary.data);
    if (value->type == jbvString) {
        size_t length = (size_t)value->val.string.len;
        status = rules_count(backend, WEIGHT_OF_STRING(length));
        return status == EXPR_OK ? expr_push_string(engine, value->val.string.val, length) : status;
    }
    status = rules_count(backend, SCALAR_WEIGHT);
    if (status != EXPR_OK) return status;
    switch (value->type) {
    case jbvNull: return expr_push_nil(engine);
    case jbvBool: return expr_push_bool(engine, value->val.boolean);
    case jbvNumeric: return push_numeric(value->val.numeric);
    default: return rules_fail(backend, EXPR_MISUSE, "jsonb has a value of an unknown kind");
    }
}

/* Says how many items or pairs an array or an object has that begins, and counts its weight. */
static expr_status begin_container(JsonbIteratorToken token, const JsonbValue *value, size_t *count) {
    if (token == WJB_BEGIN_ARRAY) {
        *count = (size_t)value->val.array.nElems;
        return rules_count(backend, ARRAY_WEIGHT);
    }
    *count = (size_t)value->val.object.nPairs;
    return rules_count(backend, MAP_WEIGHT + PAIR_WEIGHT * *count);
}

/* Pushes an array or an object, item by item, so that a query can be canceled between any two. */
static expr_status push_container(JsonbContainer *container) {
    size_t counts[RECORD_DEPTH - 1], depth = 0;
    JsonbIterator *at = JsonbIteratorInit(container);
    JsonbIteratorToken token;
    JsonbValue value;
    expr_status status = EXPR_OK;
    while (status == EXPR_OK && (token = JsonbIteratorNext(&at, &value, false)) != WJB_DONE) {
        CHECK_FOR_INTERRUPTS();
        switch (token) {
        case WJB_BEGIN_ARRAY:
        case WJB_BEGIN_OBJECT:
            if (depth == RECORD_DEPTH - 1) return rules_fail(backend, EXPR_LIMIT_DEPTH, "the record nests deeper than 127 levels");
            status = begin_container(token, &value, &counts[depth++]);
            break;
        case WJB_END_ARRAY: status = expr_make_array(backend->engine, counts[--depth]); break;
        case WJB_END_OBJECT: status = expr_make_map(backend->engine, counts[--depth]); break;
        default: status = push_value(&value); /* a key, an item or the value of a pair */
        }
    }
    return status;
}

/* Hands in the value of a name. */
static expr_status set_value(const char *name, size_t length, const JsonbValue *value) {
    expr_status status;
    if (value->type == jbvString) { /* the way of all others takes a call more */
        size_t bytes = (size_t)value->val.string.len;
        status = rules_count(backend, WEIGHT_OF_STRING(bytes));
        if (status != EXPR_OK) return status;
        return expr_set_string(backend->engine, backend->record, name, length, value->val.string.val, bytes);
    }
    status = push_value(value);
    if (status == EXPR_OK) status = expr_set_built(backend->engine, backend->record, name, length);
    return rules_fail_at(backend, status, name, length);
}

static expr_status set_all(JsonbContainer *record) {
    JsonbIterator *at = JsonbIteratorInit(record);
    JsonbValue name, value;
    expr_status status = EXPR_OK;
    JsonbIteratorNext(&at, &value, true); /* the object begins */
    while (status == EXPR_OK && JsonbIteratorNext(&at, &name, true) == WJB_KEY) {
        JsonbIteratorNext(&at, &value, true);
        status = rules_count(backend, PAIR_WEIGHT + WEIGHT_OF_STRING(name.val.string.len));
        if (status == EXPR_OK) status = set_value(name.val.string.val, (size_t)name.val.string.len, &value);
    }
    return status;
}

/* Hands in the names that a rule reads and the record has. */
static expr_status set_names(const rule *it, JsonbContainer *record) {
    expr_status status = EXPR_OK;
    if (it->reads_all) return set_all(record);
    for (size_t i = 0; i < it->name_count && status == EXPR_OK; i++) {
        const rule_name *name = &it->names[i];
        JsonbValue found;
        if (getKeyJsonValueFromContainer(record, name->text, (int)name->length, &found)) {
            status = set_value(name->text, name->length, &found);
        }
    }
    return status;
}

/* --- answers --- */

static Datum boolean_of(const expr_answer *answer, const text *rule_text) {
    expr_place nowhere = {0, 0, 0};
    if (answer->kind != EXPR_BOOL) {
        ereport(ERROR, (errcode(ERRCODE_DATATYPE_MISMATCH), errmsg("the value of the rule is not a boolean"),
                        show_rule(rule_text, &nowhere)));
    }
    return BoolGetDatum(answer->number != 0);
}

static Datum jsonb_of(const expr_answer *answer, const text *rule_text) {
    JsonbValue value;
    const char *json;
    expr_status status;
    switch (answer->kind) {
    case EXPR_NIL: value.type = jbvNull; break;
    case EXPR_BOOL:
        value.type = jbvBool;
        value.val.boolean = answer->number != 0;
        break;
    case EXPR_INTEGER:
        value.type = jbvNumeric;
        value.val.numeric = int64_to_numeric(answer->number);
        break;
    default:
        status = rules_json(backend, &json, NULL);
        if (status != EXPR_OK) fail(status, rule_text);
        return DirectFunctionCall1(jsonb_in, CStringGetDatum(json));
    }
    return JsonbPGetDatum(JsonbValueToJsonb(&value));
}

/* Runs a rule for a record, and makes a datum of its value. */
static Datum run(text *rule_text, Jsonb *record, Datum (*datum_of)(const expr_answer *, const text *)) {
    volatile Datum made = (Datum)0;
    begin_call();
    if (!JB_ROOT_IS_OBJECT(record)) {
        ereport(ERROR, (errcode(ERRCODE_INVALID_PARAMETER_VALUE), errmsg("the record is not a JSON object")));
    }
    PG_TRY();
    {
        const rule *it;
        expr_answer answer;
        expr_status status = rules_find(backend, VARDATA_ANY(rule_text), VARSIZE_ANY_EXHDR(rule_text), &it);
        if (status == EXPR_OK) status = rules_begin(backend);
        if (status == EXPR_OK) status = set_names(it, &record->root);
        if (status == EXPR_OK) status = rules_run(backend, it, &answer);
        if (status != EXPR_OK) fail(status, rule_text);
        made = datum_of(&answer, rule_text);
    }
    PG_FINALLY();
    {
        rules_end(backend);
    }
    PG_END_TRY();
    return made;
}

/* --- the functions --- */

Datum exprlang_true(PG_FUNCTION_ARGS) { return run(PG_GETARG_TEXT_PP(0), PG_GETARG_JSONB_P(1), boolean_of); }

Datum exprlang_eval(PG_FUNCTION_ARGS) { return run(PG_GETARG_TEXT_PP(0), PG_GETARG_JSONB_P(1), jsonb_of); }

Datum exprlang_check(PG_FUNCTION_ARGS) {
    text *rule_text = PG_GETARG_TEXT_PP(0);
    const rule *it;
    expr_status status;
    begin_call();
    status = rules_find(backend, VARDATA_ANY(rule_text), VARSIZE_ANY_EXHDR(rule_text), &it);
    if (status == EXPR_OK) PG_RETURN_NULL();
    if (status == EXPR_MEMORY) fail(status, rule_text);
    PG_RETURN_TEXT_P(cstring_to_text(rules_fault(backend, status)));
}

Datum exprlang_version(PG_FUNCTION_ARGS) {
    (void)fcinfo;
    PG_RETURN_TEXT_P(cstring_to_text(expr_version()));
}

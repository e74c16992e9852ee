/* Finds the members of a JSON line that a rule reads. The engine reads the values of those, and none of the others. What is taken
 * here is less than JSON is, so that it is surely a record of the engine's: whole numbers of up to 18 digits, few levels, and no
 * half of a surrogate pair. Other lines, right or wrong, are for the engine to read. Nothing here needs the GIL. */
#include "runs.h"
#include <stddef.h>
#include <string.h>

/* How many names are looked for, each of them in turn. */
#define MOST_NAMES 32
/* How deep arrays and objects may nest in a member. */
#define MOST_LEVELS 16
#define MOST_DIGITS 18 /* 64 bits have room for all of these */

/* A part of a line. `at` is null where there is none. */
typedef struct {
    const char *at;
    size_t length;
} part;

/* What is still to be read of a line. */
typedef struct {
    const char *at, *end;
} rest;

/* Where the values of names go. */
typedef struct {
    const program *of;
    part *values;
} wanted;

static void blanks_passed(rest *in) {
    while (in->at < in->end && (*in->at == ' ' || *in->at == '\t' || *in->at == '\r')) in->at++;
}

/* Each function that passes something returns whether it is there. */
static int mark_passed(rest *in, char mark) {
    blanks_passed(in);
    if (in->at == in->end || *in->at != mark) return 0;
    in->at++;
    return 1;
}

static int word_passed(rest *in, const char *word) {
    size_t length = strlen(word);
    if ((size_t)(in->end - in->at) < length || memcmp(in->at, word, length) != 0) return 0;
    in->at += length;
    return 1;
}

/* A fraction or an exponent is left, and is no mark that may follow. */
static int number_passed(rest *in) {
    int is_negative = *in->at == '-';
    const char *first = in->at += is_negative;
    while (in->at < in->end && *in->at >= '0' && *in->at <= '9') in->at++;
    ptrdiff_t digits = in->at - first;
    if (digits == 0 || digits > MOST_DIGITS) return 0;
    return *first != '0' || (digits == 1 && !is_negative);
}

/* Passes what is behind a backslash. */
static int escape_passed(rest *in) {
    if (in->at == in->end) return 0;
    char kind = *in->at++;
    if (kind != 'u') return kind && strchr("\"\\/bfnrt", kind) != NULL;
    if (in->end - in->at < 4) return 0;
    const char *digits = in->at;
    for (int i = 0; i < 4; i++)
        if (!digits[i] || !strchr("0123456789abcdefABCDEF", digits[i])) return 0;
    in->at += 4;
    return (digits[0] != 'd' && digits[0] != 'D') || digits[1] < '8';
}

/* Passes what is behind the first byte of a character beyond ASCII. */
static int character_passed(rest *in, unsigned char first) {
    ptrdiff_t more = first < 0xE0 ? 1 : first < 0xF0 ? 2 : 3;
    if (first < 0xC2 || first > 0xF4 || in->end - in->at < more) return 0;
    for (ptrdiff_t i = 0; i < more; i++)
        if ((in->at[i] & 0xC0) != 0x80) return 0;
    unsigned char second = (unsigned char)*in->at;
    in->at += more;
    if (first == 0xE0) return second >= 0xA0; /* below, there is a shorter form */
    if (first == 0xED) return second <= 0x9F; /* no half of a surrogate pair */
    if (first == 0xF0) return second >= 0x90;
    return first != 0xF4 || second <= 0x8F; /* the last character is U+10FFFF */
}

static int string_passed(rest *in, part *inside, int *has_escapes) {
    *has_escapes = 0;
    if (!mark_passed(in, '"')) return 0;
    inside->at = in->at;
    while (in->at < in->end) {
        unsigned char next = (unsigned char)*in->at++;
        if (next == '"') {
            inside->length = (size_t)(in->at - 1 - inside->at);
            return 1;
        }
        if (next < ' ' || (next > 0x7F && !character_passed(in, next))) return 0;
        if (next != '\\') continue;
        *has_escapes = 1;
        if (!escape_passed(in)) return 0;
    }
    return 0;
}

static int members_passed(rest *in, int levels, const wanted *found);
static int items_passed(rest *in, int levels);

/* Passes a value, before which there are no blanks. */
static int value_passed(rest *in, int levels) {
    part inside;
    int has_escapes;
    if (in->at == in->end) return 0;
    switch (*in->at) {
    case '"': return string_passed(in, &inside, &has_escapes);
    case '[': return levels > 0 && items_passed(in, levels - 1);
    case '{': return levels > 0 && members_passed(in, levels - 1, NULL);
    case 't': return word_passed(in, "true");
    case 'f': return word_passed(in, "false");
    case 'n': return word_passed(in, "null");
    default: return number_passed(in);
    }
}

static int items_passed(rest *in, int levels) {
    if (!mark_passed(in, '[')) return 0;
    if (mark_passed(in, ']')) return 1;
    do {
        blanks_passed(in);
        if (!value_passed(in, levels)) return 0;
    } while (mark_passed(in, ','));
    return mark_passed(in, ']');
}

/* Notes the value of a member, if its name is wanted. The last one of a name counts. */
static void noted(const wanted *found, const part *key, const char *value, const char *end) {
    const program *it = found->of;
    for (Py_ssize_t i = 0; i < it->count; i++) {
        if ((size_t)it->names[i].length != key->length || memcmp(it->names[i].utf8, key->at, key->length) != 0) continue;
        found->values[i].at = value;
        found->values[i].length = (size_t)(end - value);
        return;
    }
}

/* Passes an object, and notes the values of its members that are wanted, if any are. Then no name of it has escapes. */
static int members_passed(rest *in, int levels, const wanted *found) {
    part key;
    int has_escapes;
    if (!mark_passed(in, '{')) return 0;
    if (mark_passed(in, '}')) return 1;
    do {
        if (!string_passed(in, &key, &has_escapes) || (has_escapes && found) || !mark_passed(in, ':')) return 0;
        blanks_passed(in);
        const char *value = in->at;
        if (!value_passed(in, levels)) return 0;
        if (found) noted(found, &key, value, in->at);
    } while (mark_passed(in, ','));
    return mark_passed(in, '}');
}

/* Puts values into the context of the line before, or into a new one if that has a name that this line lacks. Returns whether the
 * engine took them all. */
static int values_put(run *r, const part *values) {
    const program *it = r->it;
    expr_engine *at = r->in->at;
    for (Py_ssize_t i = 0; i < it->count; i++)
        if (!values[i].at && r->is_put[i]) context_dropped(r);
    if (!r->has_context) {
        if (expr_context_new(at, &r->context) != EXPR_OK) return 0;
        r->has_context = 1;
        memset(r->is_put, 0, (size_t)it->count);
    }
    for (Py_ssize_t i = 0; i < it->count; i++) {
        if (!values[i].at) continue;
        const name *word = &it->names[i];
        expr_status status = expr_set_json(at, r->context, word->utf8, (size_t)word->length, values[i].at, values[i].length);
        if (status != EXPR_OK) return 0;
        r->is_put[i] = 1;
    }
    return 1;
}

int line_put(run *r, const char *json, size_t length) {
    part values[MOST_NAMES];
    rest in = {json, json + length};
    const wanted found = {r->it, values};
    if (r->it->uses_env || r->it->count > MOST_NAMES) return 0;
    memset(values, 0, sizeof *values * (size_t)r->it->count);
    if (!members_passed(&in, MOST_LEVELS, &found)) return 0;
    blanks_passed(&in);
    return in.at == in.end && values_put(r, values);
}

/* Finds values in a string of JSON: see json.h. */
#include "json.h"
#include "rules.h"
#include <string.h>

enum { MOST_DEPTH = 1000 };

/* The next character; a zero byte, which no JSON has outside of strings, at the end. */
static char next(const json_scan *scan) { return scan->at < scan->end ? *scan->at : 0; }

void json_pass_space(json_scan *scan) {
    while (scan->at < scan->end && (*scan->at == ' ' || *scan->at == '\n' || *scan->at == '\t' || *scan->at == '\r')) scan->at++;
}

int json_pass(json_scan *scan, char character) {
    if (next(scan) != character) return 0;
    scan->at++;
    return 1;
}

static int pass_escape(json_scan *scan) {
    char character = next(scan);
    if (!character || !strchr("\"\\/bfnrtu", character)) return 0;
    scan->at++;
    for (int i = 0; character == 'u' && i < 4; i++) {
        if (!next(scan) || !strchr("0123456789abcdefABCDEF", next(scan))) return 0;
        scan->at++;
    }
    return 1;
}

int json_pass_string(json_scan *scan, int *is_plain) {
    const char *start = scan->at;
    *is_plain = 1;
    if (!json_pass(scan, '"')) return 0;
    while (scan->at < scan->end && (unsigned char)*scan->at >= ' ') {
        char character = *scan->at++;
        if (character == '"') {
            scan->weight += WEIGHT_OF_STRING(scan->at - start - 2);
            return 1;
        }
        if (character == '\\') {
            *is_plain = 0;
            if (!pass_escape(scan)) return 0;
        }
    }
    return 0;
}

static size_t pass_digits(json_scan *scan) {
    const char *start = scan->at;
    while (scan->at < scan->end && *scan->at >= '0' && *scan->at <= '9') scan->at++;
    return (size_t)(scan->at - start);
}

static int pass_number(json_scan *scan) {
    json_pass(scan, '-');
    if (!json_pass(scan, '0') && !pass_digits(scan)) return 0;
    if (json_pass(scan, '.') && !pass_digits(scan)) return 0;
    if (json_pass(scan, 'e') || json_pass(scan, 'E')) {
        if (!json_pass(scan, '+')) json_pass(scan, '-');
        if (!pass_digits(scan)) return 0;
    }
    scan->weight += SCALAR_WEIGHT;
    return 1;
}

static int pass_word(json_scan *scan, const char *word) {
    size_t length = strlen(word);
    if ((size_t)(scan->end - scan->at) < length || memcmp(scan->at, word, length) != 0) return 0;
    scan->at += length;
    scan->weight += SCALAR_WEIGHT;
    return 1;
}

static int pass_scalar(json_scan *scan) {
    int is_plain;
    switch (next(scan)) {
    case '"': return json_pass_string(scan, &is_plain);
    case 't': return pass_word(scan, "true");
    case 'f': return pass_word(scan, "false");
    case 'n': return pass_word(scan, "null");
    default: return pass_number(scan);
    }
}

/* Passes the key of a pair and its colon. */
static int pass_key(json_scan *scan) {
    int is_plain;
    json_pass_space(scan);
    if (!json_pass_string(scan, &is_plain)) return 0;
    scan->weight += PAIR_WEIGHT;
    json_pass_space(scan);
    return json_pass(scan, ':');
}

/* Passes what comes behind a value within `depth` arrays and objects, whose ends are `closers`: to the next value, or to the end of
 * all of them. */
static int pass_behind(json_scan *scan, const char *closers, size_t *depth) {
    while (*depth > 0) {
        char closer = closers[*depth - 1];
        json_pass_space(scan);
        if (json_pass(scan, ',')) return closer != '}' || pass_key(scan);
        if (!json_pass(scan, closer)) return 0;
        --*depth;
    }
    return 1;
}

int json_pass_value(json_scan *scan, size_t most_depth) {
    char closers[MOST_DEPTH];
    size_t depth = 0;
    do {
        json_pass_space(scan);
        char character = next(scan);
        if (character != '{' && character != '[') {
            if (!pass_scalar(scan)) return 0;
        } else {
            if (depth == most_depth || depth == MOST_DEPTH) return 0;
            scan->at++;
            scan->weight += character == '{' ? MAP_WEIGHT : ARRAY_WEIGHT;
            closers[depth++] = character == '{' ? '}' : ']';
            json_pass_space(scan);
            if (next(scan) != closers[depth - 1]) {
                if (character == '{' && !pass_key(scan)) return 0;
                continue;
            }
        }
        if (!pass_behind(scan, closers, &depth)) return 0;
    } while (depth > 0);
    return 1;
}

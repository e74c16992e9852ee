/* Finds values in a string of JSON without reading what no one asks for. */
#ifndef EXPRLANG_JSON_H
#define EXPRLANG_JSON_H
#include <stddef.h>

#ifdef __cplusplus
extern "C" {
#endif

/* How far a string of JSON was passed, and what the values in it weigh (rules.h). */
typedef struct { const char *at, *end; size_t weight; } json_scan;

/* Passes the spaces, tabs and ends of lines that come next. */
void json_pass_space(json_scan *scan);
/* Passes a character, if it comes next: 1 or 0. */
int json_pass(json_scan *scan, char character);
/* Passes a string with its quotes: 1, or 0 if none comes next. `is_plain` says whether it is free of escapes. */
int json_pass_string(json_scan *scan, int *is_plain);
/* Passes a value: 1, or 0 if none comes next, or if it nests deeper than `most_depth` levels or 1000. Its form is that of RFC 8259,
 * but for the strings: whether they are UTF-8, and their surrogates come in pairs, is not looked at. */
int json_pass_value(json_scan *scan, size_t most_depth);

#ifdef __cplusplus
}
#endif
#endif

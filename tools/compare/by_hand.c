/* The rules by hand in C, as a host without an engine writes them: turns.h says what it does. Each use of a name looks it up in
 * a hash map with open addressing, and checks the kind of what is found. The hashes of the rule's names are known before. So this
 * is the lower limit for an engine whose names come in a map. There is nothing to compile. */
#include "turns.h"

typedef struct {
    const char *name;
    size_t length;
    uint64_t hash;
    value *it;
} slot;
typedef struct {
    size_t mask;
    slot *slots;
} hash_map;
/* A name of a rule. */
typedef struct {
    const char *text;
    size_t length;
    uint64_t hash;
} name;
#define NAME(word) static name word##_name = {#word, sizeof #word - 1, 0};
#define NAMES(DO) \
    DO(price) DO(count) DO(blocked) DO(user) DO(age) DO(country) DO(name) DO(rs) DO(Origin) DO(Country) DO(Value) DO(Adults) \
    DO(x) DO(twice)
NAMES(NAME)

/* FNV-1a. */
static uint64_t hash_of(const char *text, size_t length)
{
    uint64_t hash = UINT64_C(0xcbf29ce484222325);
    for (size_t i = 0; i < length; i++) hash = (hash ^ (unsigned char)text[i]) * UINT64_C(0x100000001b3);
    return hash;
}

static slot *place_of(const hash_map *map, const char *text, size_t length, uint64_t hash)
{
    for (size_t at = (size_t)hash & map->mask;; at = (at + 1) & map->mask) {
        slot *it = map->slots + at;
        if (!it->name || (it->hash == hash && it->length == length && !memcmp(it->name, text, length))) return it;
    }
}

static void put(hash_map *map, const char *text, size_t length, value *it)
{
    uint64_t hash = hash_of(text, length);
    slot *place = place_of(map, text, length, hash);
    place->name = text;
    place->length = length;
    place->hash = hash;
    place->it = it;
}

/* A map for so few names that it stays sparse. */
static hash_map *new_map(void)
{
    hash_map *map = (hash_map *)calloc(1, sizeof *map);
    map->mask = 31;
    map->slots = (slot *)calloc(map->mask + 1, sizeof *map->slots);
    return map;
}

/* Gives each map in a value its hash map. */
static void index_maps(value *it)
{
    if (it->kind == MAP) it->index = new_map();
    for (size_t i = 0; i < it->count && it->items; i++) {
        if (it->kind == MAP) put((hash_map *)it->index, it->keys[i], strlen(it->keys[i]), it->items + i);
        index_maps(it->items + i);
    }
}

static value *look_up(const hash_map *map, const name *word)
{
    value *it = place_of(map, word->text, word->length, word->hash)->it;
    if (!it) stop("an unknown name");
    return it;
}
/* Each use of a name is a look-up of its own: a compiler can't see through this pointer and save one. */
static value *(*volatile looked_up)(const hash_map *, const name *) = look_up;

static hash_map *top;
static value *of_kind(const hash_map *map, const name *word, value_kind wanted)
{
    value *it = looked_up(map, word);
    if (it->kind != wanted) stop("another kind of value");
    return it;
}
#define INTEGER_OF(map, word) (of_kind((const hash_map *)(map), &word##_name, INTEGER)->number)
#define BOOL_OF(map, word) (of_kind((const hash_map *)(map), &word##_name, BOOL)->number)
#define STRING_OF(map, word) of_kind((const hash_map *)(map), &word##_name, STRING)
#define MAP_OF(map, word) (of_kind((const hash_map *)(map), &word##_name, MAP)->index)
#define IS(it, word) ((it)->count == sizeof word - 1 && !memcmp((it)->text, word, sizeof word - 1))

static void truth(value *answer, int it)
{
    answer->kind = BOOL;
    answer->number = it;
}

static void order(value *answer) { truth(answer, INTEGER_OF(top, price) * INTEGER_OF(top, count) > 100 && !BOOL_OF(top, blocked)); }

static void member(value *answer)
{
    int holds = INTEGER_OF(MAP_OF(top, user), age) > 18;
    if (holds) {
        const value *country = STRING_OF(MAP_OF(top, user), country);
        holds = IS(country, "DE") || IS(country, "FR");
    }
    truth(answer, holds);
}

static void beginning(value *answer)
{
    truth(answer, strstr("foobar", "oba") != NULL && STRING_OF(top, name)->count >= 1 && STRING_OF(top, name)->text[0] == 'b');
}

static void pattern(value *answer)
{
    const value *text = STRING_OF(top, name);
    size_t letters = 0, digits;
    while (letters < text->count && text->text[letters] >= 'a' && text->text[letters] <= 'z') letters++;
    digits = letters;
    while (digits < text->count && text->text[digits] >= '0' && text->text[digits] <= '9') digits++;
    truth(answer, letters > 0 && digits > letters && digits == text->count);
}

static void add(value *answer, int64_t number)
{
    value *it = answer->items + answer->count++;
    it->kind = INTEGER;
    it->number = number;
}

static void even(value *answer)
{
    answer->kind = LIST;
    answer->items = (value *)malloc(100 * sizeof *answer->items);
    for (int64_t i = 1; i <= 100; i++)
        if (i % 2 == 0) add(answer, i);
}

static void adults(value *answer)
{
    const value *records = of_kind(top, &rs_name, LIST);
    answer->kind = INTEGER;
    for (size_t i = 0; i < records->count; i++) {
        if (records->items[i].kind != MAP) stop("another kind of value");
        answer->number += INTEGER_OF(records->items[i].index, age) > 18;
    }
}

static void flight(value *answer)
{
    truth(answer, (IS(STRING_OF(top, Origin), "MOW") || IS(STRING_OF(top, Country), "RU")) &&
                      (INTEGER_OF(top, Value) >= 100 || INTEGER_OF(top, Adults) == 1));
}

#define OR(n) || INTEGER_OF(top, x) == n
#define TEN(n) OR(n##0) OR(n##1) OR(n##2) OR(n##3) OR(n##4) OR(n##5) OR(n##6) OR(n##7) OR(n##8) OR(n##9)
static void conditions(value *answer)
{
    truth(answer, 0 OR(0) OR(1) OR(2) OR(3) OR(4) OR(5) OR(6) OR(7) OR(8) OR(9) TEN(1) TEN(2) TEN(3) TEN(4) TEN(5) TEN(6) TEN(7)
                      TEN(8) TEN(9) TEN(10) TEN(11) TEN(12) TEN(13) TEN(14) TEN(15) TEN(16) TEN(17) TEN(18) TEN(19));
}

static void calls(value *answer)
{
    answer->kind = LIST;
    answer->items = (value *)malloc(100 * sizeof *answer->items);
    for (int64_t i = 1; i <= 100; i++) add(answer, of_kind(top, &twice_name, FUNCTION)->call(i));
}

typedef struct {
    const char *begin; /* how the text of the rule begins */
    void (*answer)(value *);
} rule;
static const rule rules[] = {
    {"price *", order},      {"user.age", member}, {"\"foobar\"", beginning}, {"name matches", pattern}, {"filter(", even},
    {"count(rs", adults},    {"(Origin", flight},  {"x == 0", conditions},    {"map(", calls},
};
static void (*chosen)(value *);

static void set_names(void)
{
    for (size_t i = 0; i < name_count; i++) put(top, names[i].name, names[i].length, &names[i].it);
}

static void prepare(const char *part, const char *code)
{
    static value function;
    (void)part;
    top = new_map();
    function.kind = FUNCTION;
    function.call = twice;
    put(top, "twice", strlen("twice"), &function);
#define HASH(word) word##_name.hash = hash_of(word##_name.text, word##_name.length);
    NAMES(HASH)
    for (size_t i = 0; i < name_count; i++) index_maps(&names[i].it);
    set_names();
    for (size_t i = 0; i < sizeof rules / sizeof *rules; i++)
        if (!strncmp(code, rules[i].begin, strlen(rules[i].begin))) chosen = rules[i].answer;
    if (!chosen) stop("no such rule");
}

static void compile_once(const char *code) { stop(code); }

static void run_once(void)
{
    value answer;
    memset(&answer, 0, sizeof answer);
    chosen(&answer);
    free(answer.items);
}

static void show(void)
{
    value answer;
    memset(&answer, 0, sizeof answer);
    chosen(&answer);
    if (answer.kind == LIST) {
        for (size_t i = 0; i < answer.count; i++) printf("%" PRId64 " ", answer.items[i].number);
    } else if (answer.kind == BOOL) {
        printf("%s", answer.number ? "true" : "false");
    } else {
        printf("%" PRId64, answer.number);
    }
    free(answer.items);
}

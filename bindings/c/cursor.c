/* The calls of vokujin_cursor.h: iterations beside the array of what was inserted, and with each allocation of the cursor failing.
 * To be run with a sanitizer, or under valgrind. */
#include <stdio.h>
#include <stdlib.h>
#include <string.h>

/* How many allocations of the cursor succeed before one fails; none fails if it is negative. */
static int allowed = -1;

static void *test_malloc(size_t size) {
    return allowed >= 0 && allowed-- == 0 ? NULL : malloc(size);
}

#define malloc test_malloc
#include "vokujin.h"
#undef malloc

#define CHECK(it) ((it) ? (void)0 : (printf("cursor.c:%d: %s\n", __LINE__, #it), exit(1)))

enum { KEYS = 900 };

static char *keys[KEYS];
static size_t lens[KEYS];

static int compare(const void *one, const void *other) {
    return strcmp(*(char *const *)one, *(char *const *)other);
}

/* Makes keys of one to three letters, or of up to 5,000, in their order. */
static void make_keys(void) {
    for (unsigned at = 0; at < KEYS; at++) {
        size_t len = at % 90 == 89 ? 50 + at * 5 : 0;
        keys[at] = (char *)malloc(len + 4);
        memset(keys[at], 'x', len);
        /* A number of three digits. */
        for (unsigned rest = at + 100, digit = 3; digit-- > 0; rest /= 10) keys[at][len + digit] = (char)('0' + rest % 10);
        keys[at][len + 3] = 0;
    }
    qsort(keys, KEYS, sizeof *keys, compare);
    for (unsigned at = 0; at < KEYS; at++) lens[at] = strlen(keys[at]);
}

static uint64_t fresh(unsigned number) {
    unsigned *it = (unsigned *)malloc(sizeof *it);
    *it = number;
    return (uint64_t)(uintptr_t)it;
}

static unsigned number_of(uint64_t value) {
    return *(unsigned *)(uintptr_t)value;
}

static unsigned destroyed;

static void destroy(uint64_t value) {
    CHECK(number_of(value) == destroyed++);
    free((void *)(uintptr_t)value);
}

static void fill(vokujin_map *map) {
    uint64_t value;
    vokujin_new(map);
    for (unsigned at = 0; at < KEYS; at++) {
        unsigned key = at * 7 % KEYS;
        CHECK(vokujin_insert(map, keys[key], lens[key], fresh(key), &value) == VOKUJIN_DONE);
    }
}

/* The pairs that a cursor finds are those from one to another, in its direction. */
static void finds(vokujin_cursor *pairs, unsigned first, unsigned end, bool is_backward) {
    for (unsigned at = 0; at < end - first; at++) {
        unsigned key = is_backward ? end - 1 - at : first + at;
        CHECK(vokujin_cursor_next(pairs) == VOKUJIN_DONE);
        CHECK(pairs->key_len == lens[key] && !memcmp(pairs->key, keys[key], lens[key]) && number_of(pairs->value) == key);
    }
    CHECK(vokujin_cursor_next(pairs) == VOKUJIN_ABSENT && vokujin_cursor_next(pairs) == VOKUJIN_ABSENT);
    vokujin_cursor_free(pairs);
}

static void ranges(const vokujin_map *map) {
    vokujin_cursor pairs;
    CHECK(vokujin_cursor_prefix(&pairs, map, "", 0) == VOKUJIN_DONE);
    finds(&pairs, 0, KEYS, false);
    CHECK(vokujin_cursor_range(&pairs, map, "", 0, VOKUJIN_UNBOUNDED, "", 0, VOKUJIN_UNBOUNDED, true) == VOKUJIN_DONE);
    finds(&pairs, 0, KEYS, true);
    for (unsigned at = 0; at + 60 < KEYS; at += 37) {
        const char *from = keys[at], *to = keys[at + 60];
        CHECK(vokujin_cursor_range(&pairs, map, from, lens[at], VOKUJIN_INCLUDED, to, lens[at + 60], VOKUJIN_EXCLUDED, false) == VOKUJIN_DONE);
        finds(&pairs, at, at + 60, false);
        CHECK(vokujin_cursor_range(&pairs, map, from, lens[at], VOKUJIN_EXCLUDED, to, lens[at + 60], VOKUJIN_INCLUDED, true) == VOKUJIN_DONE);
        finds(&pairs, at + 1, at + 61, true);
        unsigned first = 0, end;
        while (strncmp(keys[first], from, 2)) first++;
        for (end = first; end < KEYS && !strncmp(keys[end], from, 2);) end++;
        CHECK(vokujin_cursor_prefix(&pairs, map, from, 2) == VOKUJIN_DONE);
        finds(&pairs, first, end, false);
    }
    CHECK(vokujin_cursor_prefix(&pairs, map, "\xff\xff", 2) == VOKUJIN_DONE);
    finds(&pairs, 0, 0, false);
    /* A cursor may be freed before its end, and twice. */
    CHECK(vokujin_cursor_prefix(&pairs, map, "1", 1) == VOKUJIN_DONE && vokujin_cursor_next(&pairs) == VOKUJIN_DONE);
    vokujin_cursor_free(&pairs);
    vokujin_cursor_free(&pairs);
}

/* The pair that a cursor has found may be removed, and inserted again. */
static void changes(vokujin_map *map) {
    vokujin_cursor pairs;
    uint64_t value;
    unsigned count = 0;
    CHECK(vokujin_cursor_prefix(&pairs, map, "", 0) == VOKUJIN_DONE);
    for (; vokujin_cursor_next(&pairs) == VOKUJIN_DONE; count++) {
        CHECK(vokujin_remove(map, pairs.key, pairs.key_len, &value) == VOKUJIN_DONE && value == pairs.value);
        if (count % 2) CHECK(vokujin_insert(map, pairs.key, pairs.key_len, pairs.value, &value) == VOKUJIN_DONE);
        else free((void *)(uintptr_t)value);
    }
    CHECK(count == KEYS);
    vokujin_cursor_free(&pairs);
    size_t len;
    CHECK(vokujin_len(map, &len) == VOKUJIN_DONE && len == KEYS / 2);
}

static void keep(uint64_t value) {
    destroyed += value % 2;
}

static void removals(void) {
    vokujin_map map;
    vokujin_pair pair;
    uint64_t value;
    char key[8];
    size_t count = 9;
    vokujin_new(&map);
    for (unsigned at = 0; at < KEYS; at++) CHECK(vokujin_insert(&map, keys[at], lens[at], at, &value) == VOKUJIN_DONE);
    CHECK(vokujin_remove_prefix(&map, "12", 2, &count) == VOKUJIN_DONE && count == 10);
    CHECK(vokujin_remove_prefix(&map, "12", 2, &count) == VOKUJIN_DONE && count == 0);
    CHECK(vokujin_pop_first(&map, key, 2, &pair) == VOKUJIN_TOO_LONG && pair.key_len == 3);
    CHECK(vokujin_pop_first(&map, key, 3, &pair) == VOKUJIN_DONE && pair.value == 0 && !memcmp(key, "100", 3));
    CHECK(vokujin_pop_last(&map, key, 8, &pair) == VOKUJIN_TOO_LONG && pair.value == KEYS - 1);
    for (int turn = 0;; turn++) {
        allowed = turn;
        uint32_t code = vokujin_remove_prefix(&map, "x", 1, &count);
        allowed = -1;
        if (code == VOKUJIN_DONE) break;
        CHECK(code == VOKUJIN_NO_MEMORY && vokujin_count_prefix(&map, "x", 1, &count) == VOKUJIN_DONE && count == KEYS / 90);
    }
    CHECK(count == KEYS / 90 && vokujin_len(&map, &count) == VOKUJIN_DONE && count == KEYS - KEYS / 90 - 11);
    CHECK(vokujin_pop_last(&map, key, 8, &pair) == VOKUJIN_DONE && !memcmp(key, "998", 3));
    CHECK(vokujin_clear(&map) == VOKUJIN_DONE && vokujin_pop_first(&map, key, 8, &pair) == VOKUJIN_ABSENT);
    destroyed = 0;
    CHECK(vokujin_free_with(&map, keep) == VOKUJIN_DONE && destroyed == 0);
    CHECK(vokujin_free_with(&map, keep) == VOKUJIN_FREED && vokujin_remove_prefix(&map, "", 0, &count) == VOKUJIN_FREED);
}

/* A key that is the prefix itself, with more keys than are read at a time. */
static void keys_that_are_prefixes(void) {
    vokujin_map map;
    uint64_t value;
    char key[8];
    size_t count;
    vokujin_new(&map);
    for (int turn = 0; turn < 2; turn++) {
        CHECK(vokujin_insert(&map, "", 0, 1, &value) == (turn ? VOKUJIN_REPLACED : VOKUJIN_DONE));
        CHECK(vokujin_insert(&map, "k", 1, 1, &value) == VOKUJIN_DONE);
        for (int at = 0; at < 100; at++) CHECK(vokujin_insert(&map, key, (size_t)sprintf(key, "k%d", at), 1, &value) == VOKUJIN_DONE);
        if (!turn) CHECK(vokujin_remove_prefix(&map, "k", 1, &count) == VOKUJIN_DONE && count == 101);
    }
    destroyed = 0;
    CHECK(vokujin_free_with(&map, keep) == VOKUJIN_DONE && destroyed == 102);
}

/* The values of the keys that are prefixes of a query, the longest first, are these. */
static void matches(const vokujin_map *map, const char *query, const char *values) {
    vokujin_pair pair;
    uint32_t code = vokujin_longest_match(map, query, strlen(query), &pair);
    for (; *values; values++, code = vokujin_next_match(map, query, &pair)) CHECK(code == VOKUJIN_DONE && pair.value == (uint64_t)*values);
    CHECK(code == VOKUJIN_ABSENT);
}

static void prefixes_of_a_query(void) {
    static const char *const stored[] = {"1", "10.", "10.1", "10.1.7", "2"};
    vokujin_map map;
    vokujin_pair pair;
    uint64_t value;
    vokujin_new(&map);
    matches(&map, "10.1.7.9", "");
    for (unsigned at = 0; at < 5; at++) CHECK(vokujin_insert(&map, stored[at], strlen(stored[at]), 'a' + at, &value) == VOKUJIN_DONE);
    matches(&map, "10.1.7.9", "dcba");
    matches(&map, "10.1", "cba");
    matches(&map, "3", "");
    matches(&map, "", "");
    /* The empty key is the last match of each query. */
    CHECK(vokujin_insert(&map, "", 0, 'z', &value) == VOKUJIN_DONE);
    matches(&map, "10.1.7.9", "dcbaz");
    matches(&map, "3", "z");
    matches(&map, "", "z");
    CHECK(vokujin_longest_match(&map, "10", 2, &pair) == VOKUJIN_DONE && vokujin_next_match(&map, "10", &pair) == VOKUJIN_DONE);
    for (int turn = 0; turn < 2; turn++) CHECK(vokujin_next_match(&map, "10", &pair) == VOKUJIN_ABSENT && pair.value == 'z' && !pair.key_len);
    CHECK(vokujin_free(&map) == VOKUJIN_DONE && vokujin_next_match(&map, "10", &pair) == VOKUJIN_FREED);
    pair.key_len = 1;
    CHECK(vokujin_next_match(&map, "10", &pair) == VOKUJIN_FREED);
}

int main(void) {
    vokujin_map map, half;
    vokujin_frozen frozen;
    vokujin_cursor pairs;
    make_keys();
    fill(&map);
    ranges(&map);
    /* Each allocation fails in turn, and then no value is destroyed. */
    uint32_t code = VOKUJIN_NO_MEMORY;
    for (int turn = 0; code == VOKUJIN_NO_MEMORY; turn++) {
        CHECK(destroyed == 0 && turn < 100);
        allowed = turn;
        code = vokujin_free_with(&map, destroy);
        allowed = -1;
    }
    CHECK(code == VOKUJIN_DONE && destroyed == KEYS);
    fill(&half);
    changes(&half);
    CHECK(vokujin_cursor_prefix(&pairs, &half, "", 0) == VOKUJIN_DONE);
    while (vokujin_cursor_next(&pairs) == VOKUJIN_DONE) free((void *)(uintptr_t)pairs.value);
    vokujin_cursor_free(&pairs);
    CHECK(vokujin_free(&half) == VOKUJIN_DONE);
    CHECK(vokujin_cursor_prefix(&pairs, &half, "", 0) == VOKUJIN_DONE && vokujin_cursor_next(&pairs) == VOKUJIN_FREED);
    vokujin_cursor_free(&pairs);
    fill(&map);
    vokujin_frozen_new(&frozen);
    CHECK(vokujin_freeze(&map, &frozen) == VOKUJIN_DONE);
    CHECK(vokujin_cursor_frozen_range(&pairs, &frozen, keys[9], lens[9], VOKUJIN_INCLUDED, "", 0, VOKUJIN_UNBOUNDED, true) == VOKUJIN_DONE);
    finds(&pairs, 9, KEYS, true);
    CHECK(vokujin_cursor_frozen_prefix(&pairs, &frozen, "", 0) == VOKUJIN_DONE);
    while (vokujin_cursor_next(&pairs) == VOKUJIN_DONE) free((void *)(uintptr_t)pairs.value);
    vokujin_cursor_free(&pairs);
    CHECK(vokujin_frozen_free(&frozen) == VOKUJIN_DONE && vokujin_free(&map) == VOKUJIN_DONE);
    removals();
    keys_that_are_prefixes();
    prefixes_of_a_query();
    for (unsigned at = 0; at < KEYS; at++) free(keys[at]);
    puts("ok");
    return 0;
}

/* Iterations over maps, and calls that need one. vokujin.h includes this file.
 *
 * These calls are C, and are compiled with the program: they are made of calls of the library. They are tested, not proved. The
 * rules of vokujin.h are theirs too. A call that returns VOKUJIN_NO_MEMORY has changed nothing.
 *
 *     vokujin_cursor pairs;
 *     vokujin_cursor_prefix(&pairs, &map, "car", 3);
 *     while (vokujin_cursor_next(&pairs) == VOKUJIN_DONE)
 *         printf("%.*s\n", (int)pairs.key_len, pairs.key);
 *     vokujin_cursor_free(&pairs);
 */
#ifndef VOKUJIN_CURSOR_H
#define VOKUJIN_CURSOR_H

#include "vokujin.h"

#include <stdlib.h>
#include <string.h>

/* How many pairs a cursor reads at a time, at most. */
enum { VOKUJIN_CURSOR_PAIRS = 32 };

/* An iteration, by ascending or by descending keys. It is not copied. */
typedef struct {
    /* The pair that vokujin_cursor_next found. The key is there until the next call on the cursor. */
    const char *key;
    size_t key_len;
    uint64_t value;
    /* The rest is for the calls alone. What is iterated over: a map, or a frozen one. */
    const vokujin_map *map;
    const vokujin_frozen *frozen;
    /* The end of what is left where it began, and the other end. */
    char *near_key, *far_key;
    size_t near_len, far_len;
    uint32_t near_kind, far_kind;
    bool is_backward, is_more;
    /* The pairs that were read, and of these those that are left. The space for keys is as long as that for near_key. */
    char *keys, *next_key;
    size_t room, next, count;
    vokujin_pair pairs[VOKUJIN_CURSOR_PAIRS];
} vokujin_cursor;

/* For the calls below: makes space for keys of this length. */
static inline uint32_t vokujin_cursor_reserve(vokujin_cursor *cursor, size_t len) {
    char *space;
    if (len <= cursor->room) return VOKUJIN_DONE;
    if (len > SIZE_MAX / 2 || !(space = (char *)malloc(2 * len))) return VOKUJIN_NO_MEMORY;
    if (cursor->room) memcpy(space, cursor->near_key, cursor->near_len);
    free(cursor->near_key);
    cursor->near_key = space;
    cursor->keys = space + len;
    cursor->room = len;
    return VOKUJIN_DONE;
}

/* Frees what a cursor has. It may be started again. */
static inline void vokujin_cursor_free(vokujin_cursor *cursor) {
    free(cursor->near_key);
    free(cursor->far_key);
    memset(cursor, 0, sizeof *cursor);
}

/* For the calls below: starts an iteration over a map or a frozen one; the other is null. */
static inline uint32_t vokujin_cursor_start(vokujin_cursor *cursor, const vokujin_map *map, const vokujin_frozen *frozen, const void *from, size_t from_len, uint32_t from_kind, const void *to, size_t to_len, uint32_t to_kind, bool is_backward) {
    memset(cursor, 0, sizeof *cursor);
    cursor->map = map;
    cursor->frozen = frozen;
    cursor->is_backward = is_backward;
    cursor->is_more = true;
    cursor->near_kind = is_backward ? to_kind : from_kind;
    cursor->far_kind = is_backward ? from_kind : to_kind;
    size_t near_len = is_backward ? to_len : from_len, far_len = is_backward ? from_len : to_len;
    /* malloc may return null where no space is asked for. */
    cursor->far_key = (char *)malloc(far_len ? far_len : 1);
    if (!cursor->far_key || vokujin_cursor_reserve(cursor, near_len < 512 ? 512 : near_len)) {
        vokujin_cursor_free(cursor);
        return VOKUJIN_NO_MEMORY;
    }
    memcpy(cursor->near_key, is_backward ? to : from, near_len);
    memcpy(cursor->far_key, is_backward ? from : to, far_len);
    cursor->near_len = near_len;
    cursor->far_len = far_len;
    return VOKUJIN_DONE;
}

/* For the calls below: starts one over the pairs with a prefix. */
static inline uint32_t vokujin_cursor_start_prefix(vokujin_cursor *cursor, const vokujin_map *map, const vokujin_frozen *frozen, const void *prefix, size_t prefix_len) {
    uint32_t code = vokujin_cursor_start(cursor, map, frozen, prefix, prefix_len, VOKUJIN_INCLUDED, prefix, prefix_len, VOKUJIN_EXCLUDED, false);
    if (code != VOKUJIN_DONE) return code;
    cursor->far_len = vokujin_prefix_end(cursor->far_key, prefix_len);
    if (!cursor->far_len) cursor->far_kind = VOKUJIN_UNBOUNDED;
    return code;
}

/* Starts an iteration over the pairs whose keys start with a prefix, by ascending keys: over all if its length is 0. The map
 * is neither moved nor freed before the cursor is. It may be changed: pairs that the cursor has read before are then given as
 * they were. If the call fails, there is nothing to be freed. */
static inline uint32_t vokujin_cursor_prefix(vokujin_cursor *cursor, const vokujin_map *map, const void *prefix, size_t prefix_len) {
    return vokujin_cursor_start_prefix(cursor, map, NULL, prefix, prefix_len);
}

/* Starts an iteration over the pairs of a range, with the bounds and the direction of vokujin_next_pairs. */
static inline uint32_t vokujin_cursor_range(vokujin_cursor *cursor, const vokujin_map *map, const void *from, size_t from_len, uint32_t from_kind, const void *to, size_t to_len, uint32_t to_kind, bool is_backward) {
    return vokujin_cursor_start(cursor, map, NULL, from, from_len, from_kind, to, to_len, to_kind, is_backward);
}

/* Starts an iteration over the pairs of a frozen map whose keys start with a prefix. */
static inline uint32_t vokujin_cursor_frozen_prefix(vokujin_cursor *cursor, const vokujin_frozen *frozen, const void *prefix, size_t prefix_len) {
    return vokujin_cursor_start_prefix(cursor, NULL, frozen, prefix, prefix_len);
}

/* Starts an iteration over the pairs of a range of a frozen map. */
static inline uint32_t vokujin_cursor_frozen_range(vokujin_cursor *cursor, const vokujin_frozen *frozen, const void *from, size_t from_len, uint32_t from_kind, const void *to, size_t to_len, uint32_t to_kind, bool is_backward) {
    return vokujin_cursor_start(cursor, NULL, frozen, from, from_len, from_kind, to, to_len, to_kind, is_backward);
}

/* For the calls below: reads pairs next to the near end, once. */
static inline uint32_t vokujin_cursor_read(vokujin_cursor *it, vokujin_given *given) {
    const char *from = it->is_backward ? it->far_key : it->near_key, *to = it->is_backward ? it->near_key : it->far_key;
    size_t from_len = it->is_backward ? it->far_len : it->near_len, to_len = it->is_backward ? it->near_len : it->far_len;
    uint32_t from_kind = it->is_backward ? it->far_kind : it->near_kind, to_kind = it->is_backward ? it->near_kind : it->far_kind;
    if (it->map) return vokujin_next_pairs(it->map, from, from_len, from_kind, to, to_len, to_kind, it->is_backward, it->keys, it->room, it->pairs, VOKUJIN_CURSOR_PAIRS, given);
    return vokujin_frozen_next_pairs(it->frozen, from, from_len, from_kind, to, to_len, to_kind, it->is_backward, it->keys, it->room, it->pairs, VOKUJIN_CURSOR_PAIRS, given);
}

/* For the calls below: reads pairs, where none is left of those that were read. */
static inline uint32_t vokujin_cursor_fill(vokujin_cursor *cursor) {
    vokujin_given given = {0, 0};
    uint32_t code;
    while ((code = vokujin_cursor_read(cursor, &given)) == VOKUJIN_TOO_LONG && given.count == 0)
        if (vokujin_cursor_reserve(cursor, given.key_len)) return VOKUJIN_NO_MEMORY;
    if (code == VOKUJIN_FREED || code == VOKUJIN_NO_MEMORY) return code;
    cursor->is_more = code != VOKUJIN_DONE;
    cursor->next = 0;
    cursor->count = given.count;
    cursor->next_key = cursor->keys;
    if (cursor->is_more) {
        size_t start = 0;
        for (size_t at = 0; at + 1 < given.count; at++) start += cursor->pairs[at].key_len;
        cursor->near_len = cursor->pairs[given.count - 1].key_len;
        cursor->near_kind = VOKUJIN_EXCLUDED;
        memcpy(cursor->near_key, cursor->keys + start, cursor->near_len);
    }
    return VOKUJIN_DONE;
}

/* Finds the next pair: its key and its value are in the cursor. Returns VOKUJIN_ABSENT if there is none, and VOKUJIN_NO_MEMORY
 * if there is no space for its key; then the call may be made again. */
static inline uint32_t vokujin_cursor_next(vokujin_cursor *cursor) {
    if (cursor->next == cursor->count && cursor->is_more) {
        uint32_t code = vokujin_cursor_fill(cursor);
        if (code != VOKUJIN_DONE) return code;
    }
    if (cursor->next == cursor->count) return VOKUJIN_ABSENT;
    cursor->key = cursor->next_key;
    cursor->key_len = cursor->pairs[cursor->next].key_len;
    cursor->value = cursor->pairs[cursor->next].value;
    cursor->next_key += cursor->key_len;
    cursor->next++;
    return VOKUJIN_DONE;
}

/* For the calls below: starts an iteration over the pairs with a prefix that allocates nothing, since it has space for the
 * longest of their keys. */
static inline uint32_t vokujin_cursor_prefix_reserved(vokujin_cursor *cursor, const vokujin_map *map, const void *prefix, size_t prefix_len) {
    uint32_t code = vokujin_cursor_prefix(cursor, map, prefix, prefix_len);
    if (code != VOKUJIN_DONE) return code;
    while ((code = vokujin_cursor_next(cursor)) == VOKUJIN_DONE) continue;
    if (code != VOKUJIN_ABSENT) {
        vokujin_cursor_free(cursor);
        return code;
    }
    memcpy(cursor->near_key, prefix, prefix_len);
    cursor->near_len = prefix_len;
    cursor->near_kind = VOKUJIN_INCLUDED;
    cursor->is_more = true;
    cursor->next = cursor->count = 0;
    return VOKUJIN_DONE;
}

/* Passes each value to a function, in the order of the keys, and frees the map. The function makes no call on the map. */
static inline uint32_t vokujin_free_with(vokujin_map *map, void (*destroy)(uint64_t value)) {
    vokujin_cursor pairs;
    uint32_t code = vokujin_cursor_prefix_reserved(&pairs, map, "", 0);
    if (code != VOKUJIN_DONE) return code;
    while (vokujin_cursor_next(&pairs) == VOKUJIN_DONE) destroy(pairs.value);
    vokujin_cursor_free(&pairs);
    return vokujin_free(map);
}

/* Removes the pairs whose keys start with a prefix, and writes how many they were. */
static inline uint32_t vokujin_remove_prefix(vokujin_map *map, const void *prefix, size_t prefix_len, size_t *count) {
    vokujin_cursor pairs;
    uint64_t value;
    uint32_t code = vokujin_cursor_prefix_reserved(&pairs, map, prefix, prefix_len);
    if (code != VOKUJIN_DONE) return code;
    for (*count = 0; vokujin_cursor_next(&pairs) == VOKUJIN_DONE; ++*count) vokujin_remove(map, pairs.key, pairs.key_len, &value);
    vokujin_cursor_free(&pairs);
    return VOKUJIN_DONE;
}

/* Looks up the next shorter key that is a prefix of the query: the pair is what vokujin_longest_match or this call last wrote for
 * the query. Returns VOKUJIN_ABSENT if there is none, as after the empty key, and then writes nothing. */
static inline uint32_t vokujin_next_match(const vokujin_map *map, const void *query, vokujin_pair *pair) {
    size_t len;
    if (pair->key_len) return vokujin_longest_match(map, query, pair->key_len - 1, pair);
    return vokujin_len(map, &len) == VOKUJIN_DONE ? VOKUJIN_ABSENT : VOKUJIN_FREED;
}

/* Removes the first pair, and writes what vokujin_first does. If its key is too long for the buffer, it is not removed. */
static inline uint32_t vokujin_pop_first(vokujin_map *map, void *buffer, size_t buffer_len, vokujin_pair *pair) {
    uint32_t code = vokujin_first(map, buffer, buffer_len, pair);
    return code == VOKUJIN_DONE ? vokujin_remove(map, buffer, pair->key_len, &pair->value) : code;
}

/* Removes the last pair, as vokujin_pop_first does the first. */
static inline uint32_t vokujin_pop_last(vokujin_map *map, void *buffer, size_t buffer_len, vokujin_pair *pair) {
    uint32_t code = vokujin_last(map, buffer, buffer_len, pair);
    return code == VOKUJIN_DONE ? vokujin_remove(map, buffer, pair->key_len, &pair->value) : code;
}

#endif

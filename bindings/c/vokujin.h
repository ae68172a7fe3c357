/* An ordered map of byte strings to 64-bit numbers. tools/declarations writes this file.
 *
 * What each call does is proved (crates/art_c). A program that makes the calls has to keep these rules; nothing checks them:
 *
 *   - A vokujin_map is memory of the program. vokujin_new makes an empty map there, and must be the first call on it. After
 *     vokujin_free the other calls return VOKUJIN_FREED, as long as nothing else is written to the memory.
 *   - The program neither reads nor writes the words of a map. It may copy them to another place; the map is there from then
 *     on, and the words at the old place are no map any more. The same of a vokujin_frozen, which vokujin_frozen_new makes, and
 *     of a vokujin_builder, which vokujin_builder_new makes, and which stays in one thread.
 *   - A call that takes a const vokujin_map or a const vokujin_frozen only reads it, and many threads may make such calls on it
 *     at once. While any other call works on a map or a handle, no call of another thread does. What threads do one after
 *     another is ordered as memory is otherwise: by a lock, or by the start or the end of a thread.
 *   - A pointer is never null. A pointer to bytes or pairs points to as many as its length says, also if that is 0. What a
 *     call writes to overlaps with nothing else that is passed to it.
 *   - malloc, realloc and free are one allocator, as those of the C library are.
 *   - No call is made in a signal handler, or in a child that was forked while another thread was in one.
 *
 * A call that returns VOKUJIN_NO_MEMORY has changed nothing. What a call writes through a pointer to a number, a pair or a
 * vokujin_given is written only if it returns VOKUJIN_DONE, or as the call says.
 */
#ifndef VOKUJIN_H
#define VOKUJIN_H

#include <stdbool.h>
#include <stddef.h>
#include <stdint.h>

#ifdef __cplusplus
extern "C" {
#endif

typedef struct {
    uint64_t words[35];
} vokujin_map;

/* A handle of a frozen map: one that is no longer changed. */
typedef struct {
    uint64_t words[2];
} vokujin_frozen;

/* A map that is being built from pairs in the order of their keys. */
typedef struct {
    uint64_t words[35];
} vokujin_builder;

/* A pair whose key is in a buffer. */
typedef struct {
    uint64_t value;
    size_t key_len;
} vokujin_pair;

/* How many pairs were written, and the length of the next key if that is too long for the space. */
typedef struct {
    size_t count;
    size_t key_len;
} vokujin_given;

enum {
    /* The call succeeded. If it looks something up, that was found and is written. */
    VOKUJIN_DONE = 0,
    /* What was looked up is not stored. */
    VOKUJIN_ABSENT = 1,
    /* An allocation failed, and the map is unchanged. */
    VOKUJIN_NO_MEMORY = 2,
    /* A key is longer than the space for it. Its length is written, by `vokujin_first` and `vokujin_last` with its value. */
    VOKUJIN_TOO_LONG = 3,
    /* The space for pairs is full. More pairs may be left. */
    VOKUJIN_FULL = 4,
    /* The map has been freed. */
    VOKUJIN_FREED = 5,
    /* An insertion has replaced the value of a stored key, and has written it. */
    VOKUJIN_REPLACED = 6,
    /* The key is not after the last one, so the pair was not added. */
    VOKUJIN_NOT_AFTER = 7,
    /* The range has no bound on this side. */
    VOKUJIN_UNBOUNDED = 0,
    /* The bound is a key of the range, if it is stored. */
    VOKUJIN_INCLUDED = 1,
    /* The bound is not a key of the range. */
    VOKUJIN_EXCLUDED = 2,
};

/* Returns the size of a map in bytes. It is aligned to eight bytes. */
size_t vokujin_size(void);

/* Makes an empty map in the memory of the caller. It allocates nothing. */
void vokujin_new(vokujin_map *map);

/* Frees a map. Calls on it return `VOKUJIN_FREED` from then on, until its memory is used for something else. */
uint32_t vokujin_free(vokujin_map *map);

/* Writes the number of pairs. */
uint32_t vokujin_len(const vokujin_map *map, size_t *len);

/* Removes all pairs. */
uint32_t vokujin_clear(vokujin_map *map);

/* Moves the pairs into the order of their keys in memory, so that an iteration reads memory from first to last. */
uint32_t vokujin_compact(vokujin_map *map);

/* Looks up a key, and writes its value. */
uint32_t vokujin_get(const vokujin_map *map, const void *key, size_t key_len, uint64_t *value);

/* Inserts a pair. If its key is stored it returns VOKUJIN_REPLACED, and writes the value that is replaced. */
uint32_t vokujin_insert(vokujin_map *map, const void *key, size_t key_len, uint64_t value, uint64_t *replaced);

/* Removes the pair of a key, and writes its value. */
uint32_t vokujin_remove(vokujin_map *map, const void *key, size_t key_len, uint64_t *value);

/* Writes how many keys start with a prefix. */
uint32_t vokujin_count_prefix(const vokujin_map *map, const void *prefix, size_t prefix_len, size_t *count);

/* Looks up the longest key that is a prefix of the query. Writes its length, and its value. */
uint32_t vokujin_longest_match(const vokujin_map *map, const void *query, size_t query_len, vokujin_pair *pair);

/* Writes the first pair, and its key to the front of a buffer. */
uint32_t vokujin_first(const vokujin_map *map, void *buffer, size_t buffer_len, vokujin_pair *pair);

/* Writes the last pair, and its key to the front of a buffer. */
uint32_t vokujin_last(const vokujin_map *map, void *buffer, size_t buffer_len, vokujin_pair *pair);

/* Writes the pairs of a range, by rising keys, or backward by falling keys: as many as there is space for.
 *
 * The keys are one after another at the front of the buffer; the bytes after them are not specified. A bound is a kind
 * and a key: VOKUJIN_UNBOUNDED (the key is ignored), VOKUJIN_INCLUDED or VOKUJIN_EXCLUDED. Returns VOKUJIN_DONE when
 * all pairs of the range are written, VOKUJIN_FULL when there is no space for another pair, and VOKUJIN_TOO_LONG when
 * the next key is longer than the rest of the buffer. To continue, pass the last key as an excluded bound. */
uint32_t vokujin_next_pairs(const vokujin_map *map, const void *from, size_t from_len, uint32_t from_kind, const void *to, size_t to_len, uint32_t to_kind, bool is_backward, void *buffer, size_t buffer_len, vokujin_pair *pairs, size_t pairs_len, vokujin_given *given);

/* Turns a prefix into the end of the range of the strings that start with it, and returns the length of that end. It
 * is 0 if all strings from the prefix on start with it: that range has no end. */
size_t vokujin_prefix_end(void *prefix, size_t prefix_len);

/* Returns the size of a builder in bytes. It is aligned to eight bytes. */
size_t vokujin_builder_size(void);

/* Makes a builder without pairs in the memory of the caller. It allocates nothing. */
void vokujin_builder_new(vokujin_builder *builder);

/* Adds a pair to a builder. Returns VOKUJIN_NOT_AFTER if the key is not after that of the last pair. */
uint32_t vokujin_builder_push(vokujin_builder *builder, const void *key, size_t key_len, uint64_t value);

/* Moves the pairs of a builder to a map, whose own pairs are freed before. The builder is empty then. */
uint32_t vokujin_builder_finish(vokujin_builder *builder, vokujin_map *map);

/* Frees a builder. Calls on it return `VOKUJIN_FREED` from then on. */
uint32_t vokujin_builder_free(vokujin_builder *builder);

/* Returns the size of a handle of a frozen map in bytes. It is aligned to eight bytes. */
size_t vokujin_frozen_size(void);

/* Makes a handle of no map in the memory of the caller: calls on it return `VOKUJIN_FREED`. It allocates nothing. */
void vokujin_frozen_new(vokujin_frozen *frozen);

/* Moves the pairs of a map to a frozen map, which is not changed any more, and makes the handle one of it. The map is
 * empty then. What the handle had is freed before. */
uint32_t vokujin_freeze(vokujin_map *map, vokujin_frozen *frozen);

/* Makes another handle of a frozen map. It may be passed to another thread. What the other handle had is freed before. */
uint32_t vokujin_frozen_share(const vokujin_frozen *frozen, vokujin_frozen *other);

/* Frees a handle, and with the last one the frozen map. Calls on it return `VOKUJIN_FREED` from then on. */
uint32_t vokujin_frozen_free(vokujin_frozen *frozen);

/* Writes the number of pairs of a frozen map. */
uint32_t vokujin_frozen_len(const vokujin_frozen *frozen, size_t *len);

/* Looks up a key of a frozen map, and writes its value. */
uint32_t vokujin_frozen_get(const vokujin_frozen *frozen, const void *key, size_t key_len, uint64_t *value);

/* Looks up the longest key of a frozen map that is a prefix of the query. Writes its length, and its value. */
uint32_t vokujin_frozen_longest_match(const vokujin_frozen *frozen, const void *query, size_t query_len, vokujin_pair *pair);

/* Writes the pairs of a range of a frozen map, as `vokujin_next_pairs` does. */
uint32_t vokujin_frozen_next_pairs(const vokujin_frozen *frozen, const void *from, size_t from_len, uint32_t from_kind, const void *to, size_t to_len, uint32_t to_kind, bool is_backward, void *buffer, size_t buffer_len, vokujin_pair *pairs, size_t pairs_len, vokujin_given *given);

#ifdef __cplusplus
}
#endif

#include "vokujin_cursor.h"

#endif

// What tools/fuzz runs: the bytes of an input are calls of a map, of two handles of frozen maps and of a builder, each of which
// is compared with the same on a sorted array. An allocation fails where the input says so. At the end all pairs are compared, forward and
// backward.
#include "vokujin.h"

#include <stdio.h>
#include <stdlib.h>
#include <string.h>

#define MOST_PAIRS 512
#define MOST_BYTES 40
#define CHECK(it) ((it) ? (void)0 : (printf("fuzz.c:%d: %s\n", __LINE__, #it), abort()))

typedef struct {
    uint8_t bytes[MOST_BYTES];
    size_t len;
} text;

typedef struct {
    text key;
    uint64_t value;
} entry;

// What a map has. One that is freed has no pairs.
typedef struct {
    entry pairs[MOST_PAIRS];
    size_t count;
    bool is_freed;
} array;

// The map and its array; the handles, and theirs; the builder, and its.
static vokujin_map map;
static array model;
static vokujin_frozen handles[2];
static array frozen[2];
static vokujin_builder builder;
static array built;
// What calls read: the map, or a handle.
static const vokujin_frozen *handle;
static array *now = &model;

// The input that is left.
static const uint8_t *input;
static size_t left;

static uint8_t next_byte(void) {
    if (left == 0) return 0;
    left--;
    return *input++;
}

// The library's allocations: the one that fails is counted from the last call on, 0 for none.
static size_t fails_at;

static int fails(void) {
    return fails_at != 0 && --fails_at == 0;
}

void *fuzz_malloc(size_t size) {
    return fails() ? NULL : malloc(size);
}

void *fuzz_realloc(void *block, size_t size) {
    return fails() ? NULL : realloc(block, size);
}

static text next_text(void) {
    text it = {.len = next_byte()};
    // Some texts start as a stored key does.
    if (it.len & 0x80 && now->count > 0) {
        entry *stored = &now->pairs[next_byte() % now->count];
        size_t shared = it.len & 0x3f;
        it = stored->key;
        if (shared < it.len) it.len = shared;
        if (it.len < MOST_BYTES && next_byte() & 1) it.bytes[it.len++] = next_byte();
        return it;
    }
    it.len = (it.len & 0x3f) % (MOST_BYTES + 1);
    for (size_t at = 0; at < it.len; at++) it.bytes[at] = next_byte();
    return it;
}

static int compare(const text *a, const text *b) {
    size_t least = a->len < b->len ? a->len : b->len;
    int order = memcmp(a->bytes, b->bytes, least);
    return order ? order : (a->len > b->len) - (a->len < b->len);
}

static int starts_with(const text *whole, const text *start) {
    return whole->len >= start->len && !memcmp(whole->bytes, start->bytes, start->len);
}

// The place of a key in the array, or where it belongs.
static size_t place_of(const text *key) {
    size_t at = 0;
    while (at < now->count && compare(&now->pairs[at].key, key) < 0) at++;
    return at;
}

static int is_at(size_t at, const text *key) {
    return at < now->count && compare(&now->pairs[at].key, key) == 0;
}

// The code of a call that looks something up.
static uint32_t code_of(int is_found) {
    return now->is_freed ? VOKUJIN_FREED : is_found ? VOKUJIN_DONE : VOKUJIN_ABSENT;
}

static void insert(void) {
    text key = next_text();
    uint64_t value = next_byte(), replaced = 7777;
    size_t at = place_of(&key);
    int stored = is_at(at, &key);
    if (!stored && now->count == MOST_PAIRS) return;
    uint32_t code = vokujin_insert(&map, key.bytes, key.len, value, &replaced);
    if (code == VOKUJIN_NO_MEMORY) return;
    CHECK(code == (stored ? VOKUJIN_REPLACED : VOKUJIN_DONE));
    CHECK(replaced == (stored ? now->pairs[at].value : 7777));
    if (!stored) {
        memmove(&now->pairs[at + 1], &now->pairs[at], (now->count - at) * sizeof *now->pairs);
        now->pairs[at].key = key;
        now->count++;
    }
    now->pairs[at].value = value;
}

static void remove_key(void) {
    text key = next_text();
    uint64_t value = 7777;
    size_t at = place_of(&key);
    int stored = is_at(at, &key);
    uint32_t code = vokujin_remove(&map, key.bytes, key.len, &value);
    if (code == VOKUJIN_NO_MEMORY) return;
    CHECK(code == (stored ? VOKUJIN_DONE : VOKUJIN_ABSENT));
    CHECK(value == (stored ? now->pairs[at].value : 7777));
    if (stored) memmove(&now->pairs[at], &now->pairs[at + 1], (--now->count - at) * sizeof *now->pairs);
}

static void get(void) {
    text key = next_text();
    uint64_t value = 7777;
    size_t at = place_of(&key);
    int stored = is_at(at, &key);
    uint32_t code = handle ? vokujin_frozen_get(handle, key.bytes, key.len, &value) : vokujin_get(&map, key.bytes, key.len, &value);
    CHECK(code == code_of(stored));
    CHECK(value == (stored ? now->pairs[at].value : 7777));
}

static void longest_match(void) {
    text query = next_text();
    vokujin_pair pair = {7777, 7777};
    entry *longest = NULL;
    for (size_t at = 0; at < now->count; at++)
        if (starts_with(&query, &now->pairs[at].key)) longest = &now->pairs[at];
    uint32_t code = handle ? vokujin_frozen_longest_match(handle, query.bytes, query.len, &pair) : vokujin_longest_match(&map, query.bytes, query.len, &pair);
    CHECK(code == code_of(longest != NULL));
    CHECK(pair.key_len == (longest ? longest->key.len : 7777) && pair.value == (longest ? longest->value : 7777));
}

static void count_prefix(void) {
    text prefix = next_text(), end = prefix;
    size_t seen = 7777, expected = 0, in_range = 0;
    end.len = vokujin_prefix_end(end.bytes, end.len);
    for (size_t at = 0; at < now->count; at++) {
        expected += starts_with(&now->pairs[at].key, &prefix);
        in_range += compare(&now->pairs[at].key, &prefix) >= 0 && (end.len == 0 || compare(&now->pairs[at].key, &end) < 0);
    }
    CHECK(expected == in_range);
    if (vokujin_count_prefix(&map, prefix.bytes, prefix.len, &seen) != VOKUJIN_NO_MEMORY) CHECK(seen == expected);
}

static void at_end(int is_last) {
    uint8_t buffer[MOST_BYTES];
    vokujin_pair pair = {7777, 7777};
    size_t space = next_byte() % (MOST_BYTES + 1);
    uint32_t code = is_last ? vokujin_last(&map, buffer, space, &pair) : vokujin_first(&map, buffer, space, &pair);
    if (now->count == 0) {
        CHECK(code == VOKUJIN_ABSENT && pair.value == 7777);
        return;
    }
    entry *it = &now->pairs[is_last ? now->count - 1 : 0];
    CHECK(pair.key_len == it->key.len && pair.value == it->value);
    CHECK(code == (it->key.len > space ? VOKUJIN_TOO_LONG : VOKUJIN_DONE));
    if (code == VOKUJIN_DONE) CHECK(!memcmp(buffer, it->key.bytes, it->key.len));
}

static int is_inside(const text *key, const text *from, uint32_t from_kind, const text *to, uint32_t to_kind) {
    int low = compare(key, from), high = compare(key, to);
    return (from_kind == VOKUJIN_UNBOUNDED || low > 0 || (low == 0 && from_kind == VOKUJIN_INCLUDED)) &&
           (to_kind == VOKUJIN_UNBOUNDED || high < 0 || (high == 0 && to_kind == VOKUJIN_INCLUDED));
}

// One call for many pairs, with so much space.
static void give(text from, uint32_t from_kind, text to, uint32_t to_kind, bool is_backward, size_t space, size_t most) {
    static uint8_t buffer[MOST_PAIRS * MOST_BYTES];
    static vokujin_pair pairs[MOST_PAIRS + 1];
    vokujin_given given = {7777, 7777};
    uint32_t code = handle ? vokujin_frozen_next_pairs(handle, from.bytes, from.len, from_kind, to.bytes, to.len, to_kind, is_backward, buffer, space, pairs, most, &given)
                           : vokujin_next_pairs(&map, from.bytes, from.len, from_kind, to.bytes, to.len, to_kind, is_backward, buffer, space, pairs, most, &given);
    if (now->is_freed) {
        CHECK(code == VOKUJIN_FREED);
        return;
    }
    size_t written = 0, used = 0;
    for (size_t at = 0; at < now->count; at++) {
        entry *it = &now->pairs[is_backward ? now->count - 1 - at : at];
        if (!is_inside(&it->key, &from, from_kind, &to, to_kind)) continue;
        if (written == given.count) {
            CHECK(code != VOKUJIN_DONE);
            if (code == VOKUJIN_TOO_LONG) CHECK(given.key_len == it->key.len && used + it->key.len > space);
            break;
        }
        CHECK(pairs[written].key_len == it->key.len && pairs[written].value == it->value);
        CHECK(!memcmp(buffer + used, it->key.bytes, it->key.len));
        used += it->key.len;
        written++;
    }
    CHECK(written == given.count && written <= most && used <= space);
    if (code == VOKUJIN_FULL) CHECK(written == most);
    CHECK(code == VOKUJIN_DONE || code == VOKUJIN_FULL || code == VOKUJIN_TOO_LONG);
}

static void next_pairs(void) {
    uint8_t kinds = next_byte();
    text from = next_text(), to = next_text();
    give(from, kinds % 3, to, kinds / 3 % 3, kinds & 0x80, next_byte() * 2, next_byte() % 16);
}

static void whole(void) {
    text none = {.len = 0};
    size_t len = 7777;
    fails_at = 0;
    CHECK((handle ? vokujin_frozen_len(handle, &len) : vokujin_len(&map, &len)) == code_of(1));
    CHECK(len == (now->is_freed ? 7777 : now->count));
    for (int is_backward = 0; is_backward < 2; is_backward++)
        give(none, VOKUJIN_UNBOUNDED, none, VOKUJIN_UNBOUNDED, is_backward, MOST_PAIRS * MOST_BYTES, MOST_PAIRS + 1);
}

static void freeze(int at) {
    uint32_t code = vokujin_freeze(&map, &handles[at]);
    if (code == VOKUJIN_NO_MEMORY) return;
    CHECK(code == VOKUJIN_DONE);
    frozen[at] = model;
    model.count = 0;
}

static void share(int from, int to) {
    uint32_t code = vokujin_frozen_share(&handles[from], &handles[to]);
    CHECK(code == (frozen[from].is_freed ? VOKUJIN_FREED : VOKUJIN_DONE));
    if (code == VOKUJIN_DONE) frozen[to] = frozen[from];
}

static void free_handle(int at) {
    CHECK(vokujin_frozen_free(&handles[at]) == (frozen[at].is_freed ? VOKUJIN_FREED : VOKUJIN_DONE));
    frozen[at].is_freed = true;
    frozen[at].count = 0;
}

static void one_frozen_call(void) {
    uint8_t kind = next_byte();
    int at = kind & 1;
    handle = &handles[at];
    now = &frozen[at];
    switch (kind >> 1 & 15) {
    case 0: freeze(at); break;
    case 1: share(!at, at); break;
    case 2: free_handle(at); break;
    case 3: {
        vokujin_frozen moved = handles[at];
        memset(&handles[at], 0xff, sizeof moved);
        handles[at] = moved;
        break;
    }
    case 4 ... 7: get(); break;
    case 8 ... 10: longest_match(); break;
    case 11 ... 14: next_pairs(); break;
    default: whole();
    }
    handle = NULL;
    now = &model;
}

static void push(void) {
    text key = next_text();
    uint64_t value = next_byte();
    if (built.count == MOST_PAIRS) return;
    uint32_t code = vokujin_builder_push(&builder, key.bytes, key.len, value);
    if (code == VOKUJIN_NO_MEMORY) return;
    if (built.is_freed) {
        CHECK(code == VOKUJIN_FREED);
        return;
    }
    int is_after = built.count == 0 || compare(&built.pairs[built.count - 1].key, &key) < 0;
    CHECK(code == (is_after ? VOKUJIN_DONE : VOKUJIN_NOT_AFTER));
    if (is_after) built.pairs[built.count++] = (entry){key, value};
}

static void finish(void) {
    CHECK(vokujin_builder_finish(&builder, &map) == (built.is_freed ? VOKUJIN_FREED : VOKUJIN_DONE));
    if (built.is_freed) return;
    model = built;
    built.count = 0;
}

static void free_builder(void) {
    CHECK(vokujin_builder_free(&builder) == (built.is_freed ? VOKUJIN_FREED : VOKUJIN_DONE));
    built.is_freed = true;
    built.count = 0;
}

static void new_builder(void) {
    vokujin_builder_new(&builder);
    built.is_freed = false;
}

static void one_builder_call(void) {
    uint8_t kind = next_byte();
    now = &built;
    switch (kind & 15) {
    case 0: finish(); break;
    case 1:
        free_builder();
        if (kind & 0x80) new_builder();
        break;
    case 2: {
        vokujin_builder moved = builder;
        memset(&builder, 0xff, sizeof moved);
        builder = moved;
        break;
    }
    case 3: if (built.is_freed) new_builder(); break;
    default:
        for (int at = 0; at <= kind >> 4; at++) push();
    }
    now = &model;
}

static void one_call(void) {
    uint8_t kind = next_byte();
    fails_at = kind & 0x80 ? next_byte() % 4 + 1 : 0;
    switch (kind & 0x7f) {
    case 0 ... 40: insert(); break;
    case 41 ... 50: one_builder_call(); break;
    case 51 ... 65: remove_key(); break;
    case 66 ... 75: one_frozen_call(); break;
    case 76 ... 85: get(); break;
    case 86 ... 95: longest_match(); break;
    case 96 ... 105: next_pairs(); break;
    case 106 ... 112: count_prefix(); break;
    case 113 ... 115: at_end(0); break;
    case 116 ... 118: at_end(1); break;
    case 119 ... 121: CHECK(vokujin_compact(&map) != VOKUJIN_FREED); break;
    case 122: {
        vokujin_map moved = map;
        memset(&map, 0xff, sizeof map);
        map = moved;
        break;
    }
    case 123: CHECK(vokujin_clear(&map) == VOKUJIN_DONE); now->count = 0; break;
    case 124:
        CHECK(vokujin_free(&map) == VOKUJIN_DONE && vokujin_free(&map) == VOKUJIN_FREED && vokujin_clear(&map) == VOKUJIN_FREED);
        vokujin_new(&map);
        now->count = 0;
        break;
    default: whole();
    }
}

int LLVMFuzzerTestOneInput(const uint8_t *data, size_t size) {
    input = data;
    left = size;
    model.count = 0;
    vokujin_new(&map);
    built.count = 0;
    new_builder();
    for (int at = 0; at < 2; at++) {
        vokujin_frozen_new(&handles[at]);
        frozen[at].is_freed = true;
        free_handle(at);
    }
    while (left > 0) one_call();
    whole();
    for (int at = 0; at < 2; at++) {
        handle = &handles[at];
        now = &frozen[at];
        whole();
        free_handle(at);
    }
    handle = NULL;
    now = &model;
    free_builder();
    CHECK(vokujin_free(&map) == VOKUJIN_DONE);
    return 0;
}

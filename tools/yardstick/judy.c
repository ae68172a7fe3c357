// The work on JudySL, whose keys end in a zero byte and have no other. Returns how many keys were found and taken out.
#include "peer.h"
#include <Judy.h>
#include <string.h>

static uint64_t sum;

static void insert_all(Pvoid_t *map, const uint8_t *keys, const uint64_t *ends, size_t count) {
    Word_t *value;
    for (size_t at = 0; at < count; at++) {
        JSLI(value, *map, keys + from(ends, at));
        *value = at + 1;
    }
}

static void walk_below(Pvoid_t map, const uint8_t *prefix, size_t prefix_len) {
    uint8_t key[65536];
    Word_t *value;
    memcpy(key, prefix, prefix_len);
    key[prefix_len] = 0;
    JSLF(value, map, key);
    while (value && !memcmp(key, prefix, prefix_len)) {
        sum += *value;
        JSLN(value, map, key);
    }
}

size_t judy_work(const uint8_t *keys, const uint64_t *ends, const uint8_t *asked, const uint64_t *asked_ends, size_t count,
                 const uint8_t *prefixes, const uint64_t *prefix_ends, size_t walks) {
    Pvoid_t map = NULL;
    Word_t *value, freed;
    size_t done = 0;
    int taken;
    uint8_t key[65536];
    bench_begin(INSERT);
    insert_all(&map, keys, ends, count);
    bench_begin(GET);
    for (size_t at = 0; at < count; at++) {
        JSLG(value, map, asked + from(asked_ends, at));
        done += value != NULL;
    }
    bench_begin(WALK);
    walk_below(map, asked, 0);
    bench_begin(BACK);
    memset(key, 255, sizeof key - 1);
    key[sizeof key - 1] = 0;
    JSLL(value, map, key);
    while (value) {
        sum += *value;
        JSLP(value, map, key);
    }
    bench_begin(BELOW);
    for (size_t at = 0; at < walks; at++)
        walk_below(map, prefixes + from(prefix_ends, at), len(prefix_ends, at));
    bench_begin(REMOVE);
    for (size_t at = 0; at < count; at++) {
        JSLD(taken, map, asked + from(asked_ends, at));
        done += taken;
    }
    bench_begin(AGAIN);
    insert_all(&map, keys, ends, count);
    bench_begin(CLEAR);
    JSLFA(freed, map);
    return done;
}

// The work on hat-trie. Returns how many keys were found and taken out.
#include "peer.h"
#include <hat-trie/hat-trie.h>

static uint64_t sum;

static void insert_all(hattrie_t *map, const char *keys, const uint64_t *ends, size_t count) {
    for (size_t at = 0; at < count; at++)
        *hattrie_get(map, keys + from(ends, at), len(ends, at)) = at + 1;
}

size_t hat_work(const char *keys, const uint64_t *ends, const char *asked, const uint64_t *asked_ends, size_t count,
                const char *prefixes, const uint64_t *prefix_ends, size_t walks) {
    hattrie_t *map = hattrie_create();
    size_t done = 0;
    bench_begin(INSERT);
    insert_all(map, keys, ends, count);
    bench_begin(GET);
    for (size_t at = 0; at < count; at++)
        done += hattrie_tryget(map, asked + from(asked_ends, at), len(asked_ends, at)) != NULL;
    bench_begin(WALK);
    hattrie_iter_t *walk = hattrie_iter_begin(map, true);
    for (; !hattrie_iter_finished(walk); hattrie_iter_next(walk))
        sum += *hattrie_iter_val(walk);
    hattrie_iter_free(walk);
    bench_begin(REMOVE);
    for (size_t at = 0; at < count; at++)
        done += hattrie_del(map, asked + from(asked_ends, at), len(asked_ends, at)) == 0;
    bench_begin(AGAIN);
    insert_all(map, keys, ends, count);
    bench_begin(CLEAR);
    hattrie_free(map);
    return done;
}

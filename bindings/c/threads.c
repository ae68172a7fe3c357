/* Four threads read one map at once; then one frozen map, by one handle and each by a handle of its own: to be run alone, with
 * -fsanitize=thread, and under valgrind --tool=helgrind, which also sees what the library reads and writes. */
#include "vokujin.h"

#include <pthread.h>
#include <stdio.h>
#include <stdlib.h>
#include <string.h>

#define CHECK(it) ((it) ? (void)0 : (printf("threads.c:%d: %s\n", __LINE__, #it), exit(1)))
#define TEXT(it) it, sizeof(it) - 1

enum { THREADS = 4 };

static unsigned keys_count = 20000;

/* The key of a number: its decimal digits, so that some keys are prefixes of others. */
static size_t write_key(char *key, unsigned number) {
    return (size_t)sprintf(key, "%u", number);
}

/* What a thread is started with: a map and a handle that all threads read, and a handle of its own. */
struct reader {
    pthread_t thread;
    const vokujin_map *map;
    const vokujin_frozen *all;
    vokujin_frozen frozen;
    unsigned first;
    uint64_t sum;
};

static void *read_map(void *argument) {
    struct reader *reader = argument;
    vokujin_pair pair, pairs[16];
    vokujin_given given;
    uint64_t value;
    char key[16], keys[256];
    size_t len, count;
    for (unsigned at = 0; at < keys_count; at++) {
        unsigned number = (reader->first + at) % keys_count;
        len = write_key(key, number);
        CHECK(vokujin_get(reader->map, key, len, &value) == VOKUJIN_DONE && value == number * 3);
        reader->sum += value;
        key[len] = 'x';
        CHECK(vokujin_get(reader->map, key, len + 1, &value) == VOKUJIN_ABSENT);
        CHECK(vokujin_longest_match(reader->map, key, len + 1, &pair) == VOKUJIN_DONE && pair.key_len == len);
        if (at % 64) continue;
        CHECK(vokujin_len(reader->map, &count) == VOKUJIN_DONE && count == keys_count);
        CHECK(vokujin_count_prefix(reader->map, key, len, &count) == VOKUJIN_DONE && count > 0);
        CHECK(vokujin_first(reader->map, keys, sizeof keys, &pair) == VOKUJIN_DONE && pair.value == 0);
        CHECK(vokujin_last(reader->map, keys, sizeof keys, &pair) == VOKUJIN_DONE);
        CHECK(vokujin_next_pairs(reader->map, key, len, VOKUJIN_INCLUDED, "", 0, VOKUJIN_UNBOUNDED, false, keys, sizeof keys, pairs, 16, &given) <= VOKUJIN_FULL);
        CHECK(given.count > 0 && pairs[0].key_len == len && !memcmp(keys, key, len));
    }
    return NULL;
}

static void *read_frozen(void *argument) {
    struct reader *reader = argument;
    vokujin_frozen another;
    vokujin_pair pair, pairs[16];
    vokujin_given given;
    uint64_t value;
    char key[16], keys[256];
    size_t len, count;
    for (unsigned at = 0; at < keys_count; at++) {
        unsigned number = (reader->first + at) % keys_count;
        len = write_key(key, number);
        CHECK(vokujin_frozen_get(&reader->frozen, key, len, &value) == VOKUJIN_DONE && value == number * 3);
        reader->sum += value;
        CHECK(vokujin_frozen_get(reader->all, key, len, &value) == VOKUJIN_DONE && value == number * 3);
        key[len] = 'x';
        CHECK(vokujin_frozen_get(&reader->frozen, key, len + 1, &value) == VOKUJIN_ABSENT);
        CHECK(vokujin_frozen_longest_match(&reader->frozen, key, len + 1, &pair) == VOKUJIN_DONE);
        CHECK(pair.key_len == len && pair.value == number * 3);
        if (at % 64) continue;
        /* Handles are made and freed meanwhile, so the threads count at once. */
        vokujin_frozen_new(&another);
        CHECK(vokujin_frozen_share(at % 128 ? reader->all : &reader->frozen, &another) == VOKUJIN_DONE);
        CHECK(vokujin_frozen_len(&another, &count) == VOKUJIN_DONE && count == keys_count);
        CHECK(vokujin_frozen_next_pairs(&another, key, len, VOKUJIN_INCLUDED, "", 0, VOKUJIN_UNBOUNDED, false, keys, sizeof keys, pairs, 16, &given) <= VOKUJIN_FULL);
        CHECK(given.count > 0 && pairs[0].key_len == len && pairs[0].value == number * 3 && !memcmp(keys, key, len));
        CHECK(vokujin_frozen_free(&another) == VOKUJIN_DONE);
    }
    CHECK(vokujin_frozen_free(&reader->frozen) == VOKUJIN_DONE);
    return NULL;
}

static void each_call(void) {
    vokujin_map map;
    vokujin_frozen frozen, moved, other;
    uint64_t value;
    size_t count;
    CHECK(vokujin_frozen_size() == sizeof frozen);
    vokujin_new(&map);
    vokujin_frozen_new(&frozen);
    vokujin_frozen_new(&other);
    CHECK(vokujin_frozen_len(&frozen, &count) == VOKUJIN_FREED && vokujin_frozen_free(&frozen) == VOKUJIN_FREED);
    CHECK(vokujin_insert(&map, TEXT("car"), 1, &value) == VOKUJIN_DONE);
    CHECK(vokujin_freeze(&map, &frozen) == VOKUJIN_DONE);
    /* The map is empty, and may be used again. */
    CHECK(vokujin_len(&map, &count) == VOKUJIN_DONE && count == 0);
    CHECK(vokujin_insert(&map, TEXT("dog"), 2, &value) == VOKUJIN_DONE);
    CHECK(vokujin_frozen_get(&frozen, TEXT("car"), &value) == VOKUJIN_DONE && value == 1);
    CHECK(vokujin_frozen_get(&frozen, TEXT("dog"), &value) == VOKUJIN_ABSENT);
    CHECK(vokujin_frozen_share(&frozen, &other) == VOKUJIN_DONE);
    CHECK(vokujin_frozen_free(&frozen) == VOKUJIN_DONE && vokujin_frozen_free(&frozen) == VOKUJIN_FREED);
    CHECK(vokujin_frozen_share(&frozen, &other) == VOKUJIN_FREED);
    CHECK(vokujin_frozen_get(&other, TEXT("car"), &value) == VOKUJIN_DONE && value == 1);
    /* A handle may be moved, and one that has a map may get another. */
    moved = other;
    memset(&other, 0xff, sizeof other);
    CHECK(vokujin_freeze(&map, &moved) == VOKUJIN_DONE);
    CHECK(vokujin_frozen_get(&moved, TEXT("car"), &value) == VOKUJIN_ABSENT);
    CHECK(vokujin_frozen_get(&moved, TEXT("dog"), &value) == VOKUJIN_DONE && value == 2);
    CHECK(vokujin_free(&map) == VOKUJIN_DONE && vokujin_freeze(&map, &moved) == VOKUJIN_FREED);
    CHECK(vokujin_frozen_len(&moved, &count) == VOKUJIN_DONE && count == 1);
    CHECK(vokujin_frozen_free(&moved) == VOKUJIN_DONE);
}

int main(int count, char **arguments) {
    static struct reader readers[THREADS];
    vokujin_map map;
    vokujin_frozen frozen;
    uint64_t value, sum = 0;
    char key[16];
    if (count > 1) keys_count = (unsigned)atoi(arguments[1]);
    each_call();
    vokujin_new(&map);
    for (unsigned number = 0; number < keys_count; number++) {
        CHECK(vokujin_insert(&map, key, write_key(key, number), number * 3, &value) == VOKUJIN_DONE);
        sum += number * 3;
    }
    for (unsigned at = 0; at < THREADS; at++) {
        readers[at] = (struct reader){.map = &map, .first = at * (keys_count / THREADS)};
        CHECK(pthread_create(&readers[at].thread, NULL, read_map, &readers[at]) == 0);
    }
    for (unsigned at = 0; at < THREADS; at++) {
        CHECK(pthread_join(readers[at].thread, NULL) == 0);
        CHECK(readers[at].sum == sum);
    }
    vokujin_frozen_new(&frozen);
    CHECK(vokujin_freeze(&map, &frozen) == VOKUJIN_DONE);
    CHECK(vokujin_free(&map) == VOKUJIN_DONE);
    for (unsigned at = 0; at < THREADS; at++) {
        struct reader *reader = &readers[at];
        *reader = (struct reader){.all = &frozen, .first = at * (keys_count / THREADS)};
        vokujin_frozen_new(&reader->frozen);
        CHECK(vokujin_frozen_share(&frozen, &reader->frozen) == VOKUJIN_DONE);
        CHECK(pthread_create(&reader->thread, NULL, read_frozen, reader) == 0);
    }
    for (unsigned at = 0; at < THREADS; at++) {
        CHECK(pthread_join(readers[at].thread, NULL) == 0);
        CHECK(readers[at].sum == sum);
    }
    /* Now each thread has a handle of its own alone, and the last one to free its handle frees the map. */
    for (unsigned at = 0; at < THREADS; at++) {
        struct reader *reader = &readers[at];
        *reader = (struct reader){.all = &reader->frozen, .first = at * (keys_count / THREADS)};
        vokujin_frozen_new(&reader->frozen);
        CHECK(vokujin_frozen_share(&frozen, &reader->frozen) == VOKUJIN_DONE);
        CHECK(pthread_create(&reader->thread, NULL, read_frozen, reader) == 0);
    }
    CHECK(vokujin_frozen_free(&frozen) == VOKUJIN_DONE);
    for (unsigned at = 0; at < THREADS; at++) {
        CHECK(pthread_join(readers[at].thread, NULL) == 0);
        CHECK(readers[at].sum == sum);
    }
    printf("passed\n");
}

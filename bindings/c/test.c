/* Each call, also on a map that was freed, and many calls: to be run with a sanitizer, or under valgrind. */
#include "vokujin.h"

#include <stdio.h>
#include <stdlib.h>
#include <string.h>

#define CHECK(it) ((it) ? (void)0 : (printf("test.c:%d: %s\n", __LINE__, #it), exit(1)))
#define TEXT(it) it, sizeof(it) - 1

static uint64_t state = 88172645463325252u;

static uint64_t random_number(void) {
    state ^= state << 13;
    state ^= state >> 7;
    return state ^= state << 17;
}

static void each_call(void) {
    uint64_t value = 9;
    size_t count = 9;
    char keys[32];
    vokujin_pair pair = {9, 9}, pairs[8];
    vokujin_given given = {9, 9};
    vokujin_map first, map;
    CHECK(vokujin_size() == sizeof map);
    vokujin_new(&first);
    CHECK(vokujin_first(&first, keys, sizeof keys, &pair) == VOKUJIN_ABSENT && pair.value == 9);
    CHECK(vokujin_insert(&first, TEXT("car"), 1, &value) == VOKUJIN_DONE && value == 9);
    /* A map may be moved. */
    map = first;
    memset(&first, 0xff, sizeof first);
    CHECK(vokujin_insert(&map, TEXT("cart"), 2, &value) == VOKUJIN_DONE);
    CHECK(vokujin_insert(&map, TEXT(""), 3, &value) == VOKUJIN_DONE);
    CHECK(vokujin_insert(&map, TEXT("\0\1\2"), 4, &value) == VOKUJIN_DONE);
    CHECK(vokujin_insert(&map, TEXT("car"), 5, &value) == VOKUJIN_REPLACED && value == 1);
    CHECK(vokujin_len(&map, &count) == VOKUJIN_DONE && count == 4);
    CHECK(vokujin_get(&map, TEXT("cart"), &value) == VOKUJIN_DONE && value == 2);
    CHECK(vokujin_get(&map, TEXT("ca"), &value) == VOKUJIN_ABSENT && value == 2);
    CHECK(vokujin_count_prefix(&map, TEXT("car"), &count) == VOKUJIN_DONE && count == 2);
    CHECK(vokujin_longest_match(&map, TEXT("carton"), &pair) == VOKUJIN_DONE && pair.key_len == 4 && pair.value == 2);
    CHECK(vokujin_longest_match(&map, TEXT("cab"), &pair) == VOKUJIN_DONE && pair.key_len == 0 && pair.value == 3);
    CHECK(vokujin_first(&map, keys, sizeof keys, &pair) == VOKUJIN_DONE && pair.key_len == 0 && pair.value == 3);
    CHECK(vokujin_last(&map, keys, sizeof keys, &pair) == VOKUJIN_DONE && pair.key_len == 4 && !memcmp(keys, "cart", 4));
    CHECK(vokujin_last(&map, keys, 3, &pair) == VOKUJIN_TOO_LONG && pair.key_len == 4);
    CHECK(vokujin_compact(&map) == VOKUJIN_DONE);
    CHECK(vokujin_next_pairs(&map, "", 0, VOKUJIN_UNBOUNDED, "", 0, VOKUJIN_UNBOUNDED, false, keys, sizeof keys, pairs, 8, &given) == VOKUJIN_DONE);
    CHECK(given.count == 4 && pairs[1].key_len == 3 && pairs[3].value == 2 && !memcmp(keys, "\0\1\2carcart", 10));
    CHECK(vokujin_next_pairs(&map, "", 0, VOKUJIN_UNBOUNDED, TEXT("cart"), VOKUJIN_EXCLUDED, true, keys, 4, pairs, 8, &given) == VOKUJIN_TOO_LONG);
    CHECK(given.count == 1 && given.key_len == 3 && pairs[0].value == 5 && !memcmp(keys, "car", 3));
    CHECK(vokujin_next_pairs(&map, TEXT("car"), VOKUJIN_INCLUDED, "", 0, VOKUJIN_UNBOUNDED, false, keys, sizeof keys, pairs, 1, &given) == VOKUJIN_FULL);
    CHECK(given.count == 1 && pairs[0].value == 5);
    CHECK(vokujin_remove(&map, TEXT("car"), &value) == VOKUJIN_DONE && value == 5);
    CHECK(vokujin_remove(&map, TEXT("car"), &value) == VOKUJIN_ABSENT);
    CHECK(vokujin_clear(&map) == VOKUJIN_DONE && vokujin_len(&map, &count) == VOKUJIN_DONE && count == 0);
    CHECK(vokujin_free(&map) == VOKUJIN_DONE);
    CHECK(vokujin_free(&map) == VOKUJIN_FREED);
    CHECK(vokujin_get(&map, TEXT("car"), &value) == VOKUJIN_FREED && vokujin_clear(&map) == VOKUJIN_FREED);
    CHECK(vokujin_insert(&map, TEXT("car"), 1, &value) == VOKUJIN_FREED && vokujin_len(&map, &count) == VOKUJIN_FREED);
}

static void prefix_ends(void) {
    char prefix[] = "ab\xff\xff", all[] = "\xff\xff";
    CHECK(vokujin_prefix_end(prefix, 4) == 2 && !memcmp(prefix, "ac", 2));
    CHECK(vokujin_prefix_end(all, 2) == 0 && vokujin_prefix_end(all, 0) == 0);
}

static void building(void) {
    vokujin_builder first, builder;
    vokujin_map map;
    uint64_t value = 9;
    size_t count = 9;
    CHECK(vokujin_builder_size() == sizeof builder);
    vokujin_builder_new(&first);
    vokujin_new(&map);
    CHECK(vokujin_insert(&map, TEXT("old"), 1, &value) == VOKUJIN_DONE);
    CHECK(vokujin_builder_push(&first, TEXT(""), 1) == VOKUJIN_DONE && vokujin_builder_push(&first, TEXT(""), 2) == VOKUJIN_NOT_AFTER);
    /* A builder may be moved. */
    builder = first;
    memset(&first, 0xff, sizeof first);
    CHECK(vokujin_builder_push(&builder, TEXT("\0\1"), 2) == VOKUJIN_DONE && vokujin_builder_push(&builder, TEXT("\0"), 3) == VOKUJIN_NOT_AFTER);
    CHECK(vokujin_builder_push(&builder, TEXT("car"), 3) == VOKUJIN_DONE && vokujin_builder_push(&builder, TEXT("cart"), 4) == VOKUJIN_DONE);
    CHECK(vokujin_builder_push(&builder, TEXT("cars"), 5) == VOKUJIN_NOT_AFTER && vokujin_builder_push(&builder, TEXT("\xff"), 6) == VOKUJIN_DONE);
    CHECK(vokujin_len(&map, &count) == VOKUJIN_DONE && count == 1);
    CHECK(vokujin_builder_finish(&builder, &map) == VOKUJIN_DONE && vokujin_len(&map, &count) == VOKUJIN_DONE && count == 5);
    CHECK(vokujin_get(&map, TEXT("old"), &value) == VOKUJIN_ABSENT && vokujin_get(&map, TEXT("car"), &value) == VOKUJIN_DONE && value == 3);
    /* It is empty, and may be used again. A map that was freed gets the pairs too. */
    CHECK(vokujin_free(&map) == VOKUJIN_DONE);
    CHECK(vokujin_builder_push(&builder, TEXT("a"), 7) == VOKUJIN_DONE && vokujin_builder_finish(&builder, &map) == VOKUJIN_DONE);
    CHECK(vokujin_insert(&map, TEXT("b"), 8, &value) == VOKUJIN_DONE && vokujin_len(&map, &count) == VOKUJIN_DONE && count == 2);
    CHECK(vokujin_builder_push(&builder, TEXT("c"), 7) == VOKUJIN_DONE && vokujin_builder_free(&builder) == VOKUJIN_DONE);
    CHECK(vokujin_builder_push(&builder, TEXT("d"), 7) == VOKUJIN_FREED && vokujin_builder_free(&builder) == VOKUJIN_FREED);
    CHECK(vokujin_builder_finish(&builder, &map) == VOKUJIN_FREED && vokujin_len(&map, &count) == VOKUJIN_DONE && count == 2);
    CHECK(vokujin_free(&map) == VOKUJIN_DONE);
}

static void many_calls(void) {
    vokujin_map map;
    uint64_t value;
    vokujin_new(&map);
    for (uint64_t turn = 0; turn < 20000; turn++) {
        unsigned char key[4];
        size_t len = random_number() % 5;
        for (size_t at = 0; at < len; at++) key[at] = random_number() % 4;
        if (random_number() % 3) vokujin_insert(&map, key, len, turn, &value);
        else vokujin_remove(&map, key, len, &value);
    }
    CHECK(vokujin_free(&map) == VOKUJIN_DONE);
}

int main(void) {
    each_call();
    prefix_ends();
    building();
    many_calls();
    puts("ok");
    return 0;
}

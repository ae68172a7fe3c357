/* A builder beside insertions one by one, of the lines of a file, which rise by their bytes: sorted FILE. It prints the nanoseconds
 * a line of each, the least of seven turns, and their ratio; a turn ends before the map is freed. With a second word, which is insert
 * or push, it does one of them, once, for a count of instructions: what is freed before changes how memory grows. */
#include <stdio.h>
#include <stdlib.h>
#include <string.h>
#include <time.h>

#include "vokujin.h"

#define CHECK(it) ((it) ? (void)0 : (printf("sorted.c:%d: %s\n", __LINE__, #it), exit(1)))

typedef struct {
    char *key;
    size_t len;
} Line;

static Line *lines;
static size_t count;

static void read_lines(const char *name) {
    FILE *file = fopen(name, "rb");
    size_t room = 0;
    CHECK(file);
    for (char *line = NULL;; line = NULL, room = 0) {
        ssize_t len = getline(&line, &room, file);
        if (len <= 0) break;
        lines = (Line *)realloc(lines, (count + 1) * sizeof *lines);
        CHECK(lines);
        lines[count++] = (Line){line, (size_t)len - (line[len - 1] == '\n')};
    }
    fclose(file);
}

__attribute__((noinline)) static void insert_each(vokujin_map *map) {
    uint64_t replaced;
    for (size_t at = 0; at < count; at++) CHECK(vokujin_insert(map, lines[at].key, lines[at].len, at, &replaced) == VOKUJIN_DONE);
}

__attribute__((noinline)) static void push_each(vokujin_map *map) {
    vokujin_builder builder;
    vokujin_builder_new(&builder);
    for (size_t at = 0; at < count; at++) CHECK(vokujin_builder_push(&builder, lines[at].key, lines[at].len, at) == VOKUJIN_DONE);
    CHECK(vokujin_builder_finish(&builder, map) == VOKUJIN_DONE);
    vokujin_builder_free(&builder);
}

/* The nanoseconds a line that a map takes to be filled, if they are less. */
static double least(double before, void (*fill)(vokujin_map *map)) {
    vokujin_map map;
    struct timespec start, end;
    vokujin_new(&map);
    clock_gettime(CLOCK_MONOTONIC, &start);
    fill(&map);
    clock_gettime(CLOCK_MONOTONIC, &end);
    vokujin_free(&map);
    double it = ((double)(end.tv_sec - start.tv_sec) * 1e9 + (double)(end.tv_nsec - start.tv_nsec)) / (double)count;
    return it < before ? it : before;
}

int main(int argc, char **argv) {
    vokujin_map map;
    CHECK(argc > 1);
    read_lines(argv[1]);
    vokujin_new(&map);
    if (argc > 2) {
        (strcmp(argv[2], "push") ? insert_each : push_each)(&map);
        return 0;
    }
    double each = 1e18, builder = 1e18;
    /* A turn has both, so that a busy machine harms neither alone. */
    for (int turn = 0; turn < 7; turn++) {
        each = least(each, insert_each);
        builder = least(builder, push_each);
    }
    printf("%zu lines: nanoseconds by insertions, by a builder, and their ratio\n%.0f %.0f %.2f\n", count, each, builder, builder / each);
    return 0;
}

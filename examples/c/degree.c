/*
 * The degree of each item of a register in a plain requirement, and then a
 * trial edit: what if an item had one link more?
 *
 *   tools/staticlib
 *   cc -std=c99 -Iinclude examples/c/degree.c target/staticlib/libsvelgandur.a -o target/degree
 *   target/degree examples/house.register examples/doubled.requirement 2 0 10
 *
 * The first two words are files of bytes, as in examples/; then the link, by
 * numbers: from, role, to.
 */
#include <inttypes.h>
#include <stdio.h>
#include <stdlib.h>

#include "svelgandur.h"

#define MOST_BYTES 65539 /* a head of 3 bytes, the longest that it can say, and 1 */
#define MOST_NODES 64    /* the places of a map that is never too short */
#define MOST_STEPS 64    /* the steps of a log that can be in use */
#define WITHDRAWN 26     /* the refusal of an item that is withdrawn */

/* A message or an image, and room behind it. */
struct bytes {
    uint8_t at[MOST_BYTES];
    size_t length;
};

/* Reads a file, or so much of it that it is too long to be right. */
static int read_file(const char *path, struct bytes *into)
{
    FILE *file = fopen(path, "rb");
    int fine;

    if (file == NULL) {
        perror(path);
        return 0;
    }
    into->length = fread(into->at, 1, sizeof into->at, file);
    fine = !ferror(file);
    if (!fine)
        perror(path);
    fclose(file);
    return fine;
}

/* Prints a refusal as the listing program does. */
static void print_refusal(const uint64_t answer[4])
{
    static const char *const sides[] = {"register", "requirement", "call"};

    printf("%s refused %" PRIu64 " at %" PRIu64 "\n", sides[answer[1]], answer[2], answer[3]);
}

static void print_map(const uint16_t *map, uint64_t places)
{
    uint64_t place;

    for (place = 0; place < places; place++) {
        const char *before = place == 0 ? "" : ",";

        if (map[place] == SVELGANDUR_UNMAPPED)
            printf("%s-", before);
        else if (map[place] == SVELGANDUR_DROPPED)
            printf("%s=", before);
        else
            printf("%s%u", before, (unsigned)map[place]);
    }
}

/* Prints the degree of one item and its map, or that it is withdrawn, or the
 * refusal. */
static int print_degree(const uint8_t *image, size_t length, const struct bytes *requirement,
                        uint64_t item)
{
    uint16_t map[MOST_NODES];
    uint64_t answer[4];

    svelgandur_degree(image, length, requirement->at, requirement->length, item, map, MOST_NODES,
                      answer);
    if (answer[0] == SVELGANDUR_REFUSED && answer[2] == WITHDRAWN) {
        printf("item %" PRIu64 ": withdrawn\n", item);
        return 1;
    }
    if (answer[0] == SVELGANDUR_REFUSED) {
        print_refusal(answer);
        return 0;
    }
    printf("item %" PRIu64 ": %" PRIu64 "/%" PRIu64 " ", item, answer[1], answer[2]);
    print_map(map, answer[3]);
    printf("\n");
    return 1;
}

/* The image in a session's buffer: its first 3 + length bytes. */
static size_t image_length(const uint8_t *buffer)
{
    return 3 + (size_t)buffer[1] * 256 + buffer[2];
}

/* A link: two items and a role. */
struct link {
    uint64_t from, role, to;
};

/* Adds a link, asks again about the item that it begins at, and takes it back. */
static int try_link(struct bytes *buffer, const struct bytes *requirement, struct link link)
{
    uint64_t log[MOST_STEPS];
    uint64_t count = 0;
    uint64_t answer[4];

    svelgandur_open(buffer->at, sizeof buffer->at, answer);
    if (answer[0] != SVELGANDUR_REFUSED)
        svelgandur_edit_link(buffer->at, sizeof buffer->at, log, MOST_STEPS, count, 1, link.from,
                             link.role, link.to, answer);
    if (answer[0] == SVELGANDUR_REFUSED) {
        print_refusal(answer);
        return 0;
    }
    count = answer[1];
    printf("with a link more, steps %" PRIu64 "\n", count);
    if (!print_degree(buffer->at, image_length(buffer->at), requirement, link.from))
        return 0;

    svelgandur_undo(buffer->at, sizeof buffer->at, log, MOST_STEPS, count, answer);
    if (answer[0] == SVELGANDUR_REFUSED) {
        print_refusal(answer);
        return 0;
    }
    count = answer[1];
    printf("taken back, steps %" PRIu64 "\n", count);
    return print_degree(buffer->at, image_length(buffer->at), requirement, link.from);
}

static uint64_t number(const char *digits)
{
    return strtoull(digits, NULL, 10);
}

int main(int words, char **word)
{
    static struct bytes reg, requirement;
    uint64_t answer[4];
    uint64_t item, items;

    if (words != 3 && words != 6) {
        fprintf(stderr, "usage: degree REGISTER REQUIREMENT [FROM ROLE TO]\n");
        return 2;
    }
    if (!read_file(word[1], &reg) || !read_file(word[2], &requirement))
        return 2;
    svelgandur_read_register(reg.at, reg.length, 0, answer);
    if (answer[0] == SVELGANDUR_REFUSED) {
        print_refusal(answer);
        return 1;
    }
    items = answer[1];
    for (item = 0; item < items; item++)
        if (!print_degree(reg.at, reg.length, &requirement, item))
            return 1;
    if (words == 6) {
        struct link link;

        link.from = number(word[3]);
        link.role = number(word[4]);
        link.to = number(word[5]);
        if (!try_link(&reg, &requirement, link))
            return 1;
    }
    return 0;
}

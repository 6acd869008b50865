/* example_build IMAGE: queues blocks of the 16-block sample container for release, in a root that is built to order, and prints
 * what the check says of it without and with the queue. The queued blocks are marked as free, which no queue may hold.
 *
 *     (cd crates/interface && rt lib)
 *     cc -o target/example_build interface/example_build.c crates/interface/out/libinterface.a
 *     target/example_build crates/listing/stdin
 *
 * Exit status: 0 where both were told, 1 where something is refused or can't be read. */
#include <inttypes.h>
#include <stdio.h>
#include <stdlib.h>

#include "space_check.h"

enum { BLOCK = 4096, BLOCKS = 16 };

/* The sample's checkpoint map and space manager, and a block of its data area that is left. */
enum { MAP = 1, MANAGER = 3, QUEUE = 4 };

enum {
    XID = 7,           /* of the sample's checkpoint */
    QUEUE_ID = 0x401,  /* any that the checkpoint map hasn't */
    FREE_QUEUE = 9,    /* the subtype of a queue's nodes, and the kind of claims for queued blocks */
    MAP_COUNT = 36,    /* where the checkpoint map states how many entries it has */
    SECOND_ENTRY = 80, /* and has the second */
    MAIN_QUEUE = 248,  /* where the manager has the main queue's id */
};
static const uint32_t QUEUE_TYPE = 0x80000002; /* an ephemeral root node */

static void put(uint8_t *bytes, size_t width, uint64_t number)
{
    for (size_t i = 0; i < width; i++)
        bytes[i] = number >> 8 * i;
}

/* Writes a block's checksum, Fletcher's of its words behind it. */
static void seal(uint8_t *block)
{
    const uint64_t modulus = 0xffffffff;
    uint64_t first = 0, second = 0;
    for (uint8_t *at = block + 8; at < block + BLOCK; at += 4) {
        uint32_t word = at[0] | at[1] << 8 | at[2] << 16 | (uint32_t)at[3] << 24;
        first = (first + word) % modulus;
        second = (second + first) % modulus;
    }
    uint64_t low = modulus - (first + second) % modulus;
    put(block, 4, low);
    put(block + 4, 4, modulus - (low + first) % modulus);
}

/* Blocks 10 to 12 in one entry, and block 14, one block alone, as a ghost. */
static uint32_t build_queue(uint8_t *node)
{
    const uint64_t lengths[] = {16, 8, 16, BUILD_NODE_GHOST};
    const uint64_t numbers[] = {XID, 10, 3, XID, 14};        /* key, value, key */
    const uint32_t description[] = {0, BLOCK, 16, 8, 16, 8}; /* flags and sizes */
    uint8_t data[sizeof numbers], info[BUILD_NODE_INFO];
    for (size_t i = 0; i < 5; i++)
        put(data + 8 * i, 8, numbers[i]);
    for (size_t i = 0; i < 6; i++)
        put(info + 4 * i, 4, description[i]);
    put(info + 24, 8, 2); /* entries */
    put(info + 32, 8, 1); /* nodes */
    return build_node(node, BLOCK, QUEUE_ID, XID, QUEUE_TYPE, FREE_QUEUE, 0, true, true, 16, 8, info, sizeof info, data,
                      sizeof data, lengths, sizeof lengths / sizeof *lengths);
}

/* The checkpoint map gets a second entry, the queue's root, and the manager names it. */
static void join_queue(uint8_t *map, uint8_t *manager)
{
    uint8_t *entry = map + SECOND_ENTRY;
    put(map + MAP_COUNT, 4, 2);
    put(entry, 4, QUEUE_TYPE);
    put(entry + 4, 4, FREE_QUEUE);
    put(entry + 8, 4, BLOCK);
    put(entry + 24, 8, QUEUE_ID);
    put(entry + 32, 8, QUEUE);
    seal(map);
    put(manager + MAIN_QUEUE, 8, QUEUE_ID);
    seal(manager);
}

static void tell(const char *what, const uint8_t *image)
{
    uint8_t map[BLOCKS];
    uint64_t figures[SPACE_CHECK_FIGURES];
    space_check(image, BLOCKS * BLOCK, map, BLOCKS, figures, SPACE_CHECK_FIGURES);
    if (figures[SPACE_CHECK_REFUSAL] != 0) {
        printf("%s: refused %" PRIu64 "\n", what, figures[SPACE_CHECK_REFUSAL]);
        exit(EXIT_FAILURE);
    }
    uint64_t lost = figures[SPACE_CHECK_LOST + FREE_QUEUE - 1], first = figures[SPACE_CHECK_FIRST_LOST + FREE_QUEUE - 1];
    printf("%s: verdict %" PRIu64 ", %" PRIu64 " queued blocks marked free", what, figures[SPACE_CHECK_VERDICT], lost);
    if (lost > 0)
        printf(", the first %" PRIu64, first);
    puts("");
}

int main(int argc, char **argv)
{
    static uint8_t image[BLOCKS * BLOCK];
    FILE *file = argc == 2 ? fopen(argv[1], "rb") : NULL;
    if (file == NULL || fread(image, sizeof image, 1, file) != 1) {
        fprintf(stderr, "usage: example_build IMAGE, the sample of 16 blocks\n");
        return EXIT_FAILURE;
    }
    fclose(file);
    tell("without the queue", image);
    uint32_t refused = build_queue(image + QUEUE * BLOCK);
    if (refused != BUILD_NODE_BUILT) {
        printf("the queue's root: refused %" PRIu32 "\n", refused);
        return EXIT_FAILURE;
    }
    join_queue(image + MAP * BLOCK, image + MANAGER * BLOCK);
    tell("with the queue", image);
    return EXIT_SUCCESS;
}

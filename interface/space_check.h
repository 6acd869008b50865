/* The proved space check of an APFS container, and B-tree nodes built to order. Link crates/interface/out/libinterface.a, which
 * `rt lib` writes in crates/interface (x86-64 Linux). What the two functions leave is stated in crates/interface/src/lib.rt: for
 * every image, map and array, and for every request. */
#ifndef SPACE_CHECK_H
#define SPACE_CHECK_H

#include <stdbool.h>
#include <stddef.h>
#include <stdint.h>

#ifdef __cplusplus
extern "C" {
#endif

/* How many numbers an answer has, and where each stands. After a refusal all but the first are 0. New ones are appended, so that
 * a caller with an array of the numbers that it knows goes on as before; the verdict is by all kinds, those too that it doesn't
 * know. */
enum {
    SPACE_CHECK_REFUSAL = 0,      /* its number, or 0 where there is a report */
    SPACE_CHECK_XID = 1,          /* transaction number of the checkpoint taken */
    SPACE_CHECK_POOL_USED = 2,    /* pool blocks in use */
    SPACE_CHECK_POOL_UNUSED = 3,  /* pool blocks marked but unused */
    SPACE_CHECK_PROBLEMS = 4,     /* problems in all */
    SPACE_CHECK_PROBLEM = 5,      /* the first ten, each kind and block */
    SPACE_CHECK_FREE = 25,        /* free blocks counted */
    SPACE_CHECK_WRONG_CHUNKS = 26, /* chunks whose count differs */
    SPACE_CHECK_DEVICE_FREE = 27, /* the device's free count */
    SPACE_CHECK_OVERLAPS = 28,    /* overlaps in all */
    SPACE_CHECK_OVERLAP = 29,     /* the first ten, each block, owner and claimant */
    SPACE_CHECK_LOST = 59,        /* blocks owned but unmarked, of kinds 1 to 9 */
    SPACE_CHECK_FIRST_LOST = 68,  /* the first such of each */
    SPACE_CHECK_LEAKED = 77,      /* blocks marked but unowned */
    SPACE_CHECK_VERDICT = 78,     /* 1 consistent, 2 inconsistent */
    SPACE_CHECK_LATER_LOST = 79,  /* blocks owned but unmarked, of kinds 10 and 11 */
    SPACE_CHECK_LATER_FIRST_LOST = 81, /* the first such of each */
    SPACE_CHECK_CLAIMANTS = 83,   /* overlaps by the kind that came second, 1 to 11; they add up to SPACE_CHECK_OVERLAPS */
    SPACE_CHECK_FREE_RING = 94,   /* blocks of the pool bitmap's ring on the manager's list of unused ones, each once */
    SPACE_CHECK_FIGURES = 95
};

/* image: the container's bytes, block 0 first. Only read; nothing may change them during the call.
 *
 * map: a byte for each block, with any content. A map shorter than the block count gives refusal 6. After refusals 1 to 11 it
 * is as handed in; otherwise its first bytes, one for each block, are written: 0 after any other refusal, and after a report
 * bits 0 to 3 the owner, bit 4 marked, bit 5 used in the pool. Bytes past the block count are kept.
 *
 * figures: gets the answer's numbers. A shorter array than SPACE_CHECK_FIGURES gets the first ones; places past that are kept.
 *
 * Each pointer is to as many elements as its length says; one whose length is 0 is not followed. The three do not overlap. */
void space_check(const uint8_t *image, size_t image_length, uint8_t *map, size_t map_length, uint64_t *figures,
                 size_t figures_length);

/* What build_node answers besides 0, in the order in which it is asked. Both are refusals: the node is as it was. */
enum {
    BUILD_NODE_BUILT = 0,
    BUILD_NODE_OUTSIDE_BYTES = 17, /* no list of entries: an odd number of lengths, fewer than BUILD_NODE_INFO bytes of info, or
                                    * lengths that add up, in whole numbers, to more than data_length */
    BUILD_NODE_NO_ROOM = 26        /* a node_length that is none of 4,096, 8,192, 16,384, 32,768 and 65,536, or entries that a
                                    * node of that length has no room for */
};

/* So many bytes has a tree's description. */
enum { BUILD_NODE_INFO = 40 };

/* A value's length that stands for an entry without a value, a ghost. As a key's length it is a length. */
#define BUILD_NODE_GHOST UINT64_MAX

/* node: gets the node; its length is the node's size. What lay there doesn't matter. After 0 all of it is written: header, table,
 * keys, zeros, values, a root's description, and the checksum over all that. After a refusal it is as it was.
 *
 * oid, xid, obj_type, subtype, level, root: what the headers say. obj_type is the whole type, with its storage flags. Level 0 is a
 * leaf, any other an index node. A root ends with the description.
 *
 * fixed: keys and values have the sizes key_size and val_size, and the table's slots hold no lengths; in an index node a value is
 * reckoned with 8 bytes, whatever is stated. Where it is false, the two sizes are not looked at. The entries are not held against
 * the sizes.
 *
 * info: the tree's description, as on the disk: flags, node size, key size, value size, longest key and longest value in 4 bytes
 * each, key count and node count in 8, little-endian. It is written into a root as given; nothing in it is computed or tested.
 * Flag 0x40 of it says that keys and values are not padded to multiples of 8 bytes, in a node that isn't a root too. Bytes past
 * BUILD_NODE_INFO are not looked at.
 *
 * data: the entries' bytes, in their order: a key, its value, the next key, ... A ghost has only a key. Bytes past the last are
 * not looked at.
 *
 * lengths: two for each entry, its key's and its value's, or BUILD_NODE_GHOST.
 *
 * Each pointer is to as many elements as its length says; one whose length is 0 is not followed. info, data and lengths are only
 * read, and none of them overlaps the node. */
uint32_t build_node(uint8_t *node, size_t node_length, uint64_t oid, uint64_t xid, uint32_t obj_type, uint32_t subtype,
                    uint16_t level, bool root, bool fixed, uint32_t key_size, uint32_t val_size, const uint8_t *info,
                    size_t info_length, const uint8_t *data, size_t data_length, const uint64_t *lengths, size_t lengths_length);

#ifdef __cplusplus
}
#endif

#endif

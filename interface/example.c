/* example IMAGE: prints the verdict on a container in a file or block device, or the refusal's number.
 *
 *     (cd crates/interface && rt lib)
 *     cc -o target/example interface/example.c crates/interface/out/libinterface.a
 *
 * Exit status: 0 consistent, 1 inconsistent, 2 refused, 3 where the image can't be read. */
#include <fcntl.h>
#include <inttypes.h>
#include <stdio.h>
#include <stdlib.h>
#include <sys/mman.h>
#include <unistd.h>

#include "space_check.h"

enum {
    BLOCK_COUNT = 40,   /* where block 0 states it, in 8 bytes */
    LEAST_BLOCK = 4096, /* no container has smaller blocks */
    CONSISTENT = 1,     /* the verdict */
};

enum status { SOUND, INCONSISTENT, REFUSED, UNREADABLE };

/* How long a map the pass may need: the block count, as far as the image can have so many. One that can't is refused
 * before the map is looked at. */
static size_t map_length(const uint8_t *image, size_t length)
{
    uint64_t count = 0, most = length / LEAST_BLOCK;
    if (length < BLOCK_COUNT + 8)
        return 0;
    for (int i = 7; i >= 0; i--)
        count = count << 8 | image[BLOCK_COUNT + i];
    return count < most ? count : most;
}

int main(int argc, char **argv)
{
    static uint8_t none;
    uint64_t figures[SPACE_CHECK_FIGURES] = {0};
    uint8_t *image = &none, *map;
    size_t length, blocks;
    off_t end;
    int fd;

    if (argc != 2) {
        fprintf(stderr, "usage: example IMAGE\n");
        return UNREADABLE;
    }
    fd = open(argv[1], O_RDONLY);
    end = fd < 0 ? -1 : lseek(fd, 0, SEEK_END); /* a block device's length, too */
    if (end < 0) {
        perror(argv[1]);
        return UNREADABLE;
    }
    length = end;
    if (length > 0)
        image = mmap(NULL, length, PROT_READ, MAP_PRIVATE, fd, 0);
    if (image == MAP_FAILED) {
        perror(argv[1]);
        return UNREADABLE;
    }
    blocks = map_length(image, length);
    map = calloc(blocks + 1, 1);
    if (map == NULL) {
        perror("block map");
        return UNREADABLE;
    }

    space_check(image, length, map, blocks, figures, SPACE_CHECK_FIGURES);

    if (figures[SPACE_CHECK_REFUSAL] != 0) {
        printf("refused %" PRIu64 "\n", figures[SPACE_CHECK_REFUSAL]);
        return REFUSED;
    }
    printf("xid %" PRIu64 ", verdict %" PRIu64 "\n", figures[SPACE_CHECK_XID], figures[SPACE_CHECK_VERDICT]);
    return figures[SPACE_CHECK_VERDICT] == CONSISTENT ? SOUND : INCONSISTENT;
}

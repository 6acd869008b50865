/* replay: runs images with known answers through the proved pass. tools/replay builds it and hands it the images.
 *
 * Standard input is one image after another: a line `NAME IMAGE-LENGTH MAP-LENGTH NUMBERS`, the image's bytes, so many numbers of
 * the answer (8 bytes each, in this machine's order), and the block map that the pass leaves of one whose byte i is i mod 251.
 *
 * Each image is run with two fills of the map and with arrays of numbers of six lengths. Numbers are compared as far as they
 * are both stated and given. Prints a line for each image.
 * Exit status: 0 all agree, 1 some differ, 2 nothing to run or input cut short. */
#include <inttypes.h>
#include <stdio.h>
#include <stdlib.h>
#include <string.h>

#include "space_check.h"

enum {
    GUARD = 64,            /* bytes on each side of a buffer that nothing may write */
    GUARD_BYTE = 0xa5,
    BLOCK_COUNT = 40,      /* where block 0 states it, in 8 bytes */
    LAST_UNTOUCHED = 11,   /* up to this refusal the map is as handed in */
};

/* All numbers, more and fewer, and the three lengths of earlier callers: those before the later kinds, before the claimants and
 * before the free ring. */
static const size_t lengths[] = {
    SPACE_CHECK_FIGURES, SPACE_CHECK_FIGURES + 4, SPACE_CHECK_OVERLAPS, SPACE_CHECK_LATER_LOST, SPACE_CHECK_CLAIMANTS,
    SPACE_CHECK_FREE_RING,
};

struct image {
    char name[256];
    uint8_t *bytes, *copy, *left;
    size_t length, map_length, numbers;
    uint64_t *answer;
};

static void *allocate(size_t length)
{
    void *p = malloc(length + 1);
    if (p == NULL) {
        perror("replay");
        exit(2);
    }
    return p;
}

/* A buffer between guards. */
static uint8_t *guarded(size_t length)
{
    uint8_t *p = allocate(length + 2 * GUARD);
    memset(p, GUARD_BYTE, length + 2 * GUARD);
    return p + GUARD;
}

static int guards_kept(const uint8_t *p, size_t length)
{
    for (size_t i = 1; i <= GUARD; i++)
        if (p[-(ptrdiff_t)i] != GUARD_BYTE || p[length + i - 1] != GUARD_BYTE)
            return 0;
    return 1;
}

static uint8_t fill(int second, size_t i)
{
    return second ? 255 - i % 241 : i % 251;
}

/* How many bytes of the map the pass writes: none after an early refusal, else one for each block. */
static size_t written(const struct image *image)
{
    uint64_t refusal = image->answer[SPACE_CHECK_REFUSAL], count;
    if ((refusal != 0 && refusal <= LAST_UNTOUCHED) || image->length < BLOCK_COUNT + 8)
        return 0;
    memcpy(&count, image->bytes + BLOCK_COUNT, 8);
    return count < image->map_length ? count : image->map_length;
}

/* One call; says what differs, and gives whether all is as it should be. */
static int run(const struct image *image, int second, size_t figures_length)
{
    size_t n = image->map_length, cells = written(image);
    uint8_t *map = guarded(n), *numbers = guarded(figures_length * sizeof(uint64_t));
    uint64_t *figures = (uint64_t *)numbers;
    int ok = 0;

    memset(figures, 0xff, figures_length * sizeof(uint64_t));
    for (size_t i = 0; i < n; i++)
        map[i] = fill(second, i);

    space_check(image->bytes, image->length, map, n, figures, figures_length);

    for (size_t i = 0; i < figures_length; i++) {
        int given = i < SPACE_CHECK_FIGURES, stated = i < image->numbers;
        uint64_t expected = !given ? UINT64_MAX : stated ? image->answer[i] : figures[i];
        if (figures[i] != expected) {
            printf("%s differs: figure %zu is %" PRIu64 " and not %" PRIu64 "\n", image->name, i, figures[i], expected);
            goto end;
        }
    }
    for (size_t i = 0; i < n; i++) {
        uint8_t expected = i < cells ? image->left[i] : fill(second, i);
        if (map[i] != expected || (!second && map[i] != image->left[i])) {
            printf("%s differs: byte %zu of the map is %u and not %u\n", image->name, i, map[i], expected);
            goto end;
        }
    }
    if (!guards_kept(map, n) || !guards_kept(numbers, figures_length * sizeof(uint64_t)))
        printf("%s differs: bytes beside a buffer are written\n", image->name);
    else if (memcmp(image->bytes, image->copy, image->length) != 0)
        printf("%s differs: the image is changed\n", image->name);
    else
        ok = 1;
end:
    free(map - GUARD);
    free(numbers - GUARD);
    return ok;
}

/* A call with each length, the two fills by turns. */
static int agrees(const struct image *image)
{
    for (size_t i = 0; i < sizeof lengths / sizeof *lengths; i++)
        if (!run(image, i % 2, lengths[i]))
            return 0;
    return 1;
}

static void get(void *to, size_t length)
{
    if (fread(to, 1, length, stdin) != length) {
        fprintf(stderr, "replay: the input is cut short\n");
        exit(2);
    }
}

int main(void)
{
    struct image image;
    size_t images = 0, differ = 0;

    while (scanf("%255s %zu %zu %zu", image.name, &image.length, &image.map_length, &image.numbers) == 4) {
        char newline;
        get(&newline, 1);
        image.bytes = allocate(image.length);
        image.copy = allocate(image.length);
        image.answer = allocate(image.numbers * sizeof *image.answer);
        image.left = allocate(image.map_length);
        get(image.bytes, image.length);
        get(image.answer, image.numbers * sizeof *image.answer);
        get(image.left, image.map_length);
        memcpy(image.copy, image.bytes, image.length);

        images++;
        if (agrees(&image))
            printf("%s agrees\n", image.name);
        else
            differ++;
        fflush(stdout);

        free(image.bytes);
        free(image.copy);
        free(image.answer);
        free(image.left);
    }
    if (!feof(stdin) || images == 0) {
        fprintf(stderr, "replay: no image, or a line that names none\n");
        return 2;
    }
    printf("%zu images, %zu differ\n", images, differ);
    return differ ? 1 : 0;
}

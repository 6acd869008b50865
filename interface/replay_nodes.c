/* replay_nodes: builds nodes for requests with known answers. tools/replay-nodes builds it and hands it the requests.
 *
 * Standard input is one request after another: a line `NAME SIZE OID XID TYPE SUBTYPE LEVEL ROOT FIXED KEY-SIZE VALUE-SIZE
 * INFO-LENGTH DATA-LENGTH LENGTHS ANSWER`, the bytes of info and data, the lengths (8 bytes each, in this machine's order), and,
 * where the answer is 0, the node.
 *
 * Each request is run with two fills of the node. Prints a line for each.
 * Exit status: 0 all agree, 1 some differ, 2 nothing to run or input cut short. */
#include <inttypes.h>
#include <stdio.h>
#include <stdlib.h>
#include <string.h>

#include "space_check.h"

enum {
    GUARD = 64, /* bytes on each side of the node that nothing may write */
    GUARD_BYTE = 0xa5,
};

/* What is lent only to be read, with a copy. */
struct lent {
    void *bytes, *copy;
    size_t length;
};

struct request {
    char name[256];
    size_t size, lengths;
    uint64_t oid, xid;
    uint32_t type, subtype, key_size, value_size, answer;
    uint16_t level;
    int root, fixed;
    struct lent info, data, numbers;
    uint8_t *node;
};

static void *allocate(size_t length)
{
    void *p = malloc(length + 1);
    if (p == NULL) {
        perror("replay_nodes");
        exit(2);
    }
    return p;
}

static void get(void *to, size_t length)
{
    if (fread(to, 1, length, stdin) != length) {
        fprintf(stderr, "replay_nodes: the input is cut short\n");
        exit(2);
    }
}

static struct lent lend(size_t length)
{
    struct lent lent = {allocate(length), allocate(length), length};
    get(lent.bytes, length);
    memcpy(lent.copy, lent.bytes, length);
    return lent;
}

static int unchanged(const struct lent *lent)
{
    return memcmp(lent->bytes, lent->copy, lent->length) == 0;
}

static uint8_t fill(int second, size_t i)
{
    return second ? 255 - i % 241 : i % 251;
}

/* What byte i of the guarded node has to be: after a refusal that of the fill. */
static uint8_t expected(const struct request *r, int second, size_t i)
{
    if (i < GUARD || i - GUARD >= r->size)
        return GUARD_BYTE;
    return r->answer == BUILD_NODE_BUILT ? r->node[i - GUARD] : fill(second, i - GUARD);
}

/* One call; says what differs, and gives whether all is as it should be. */
static int run(const struct request *r, int second)
{
    size_t whole = r->size + 2 * GUARD, i = 0;
    uint8_t *p = allocate(whole);
    uint32_t answer;
    int ok = 0;

    memset(p, GUARD_BYTE, whole);
    for (size_t at = 0; at < r->size; at++)
        p[GUARD + at] = fill(second, at);

    answer = build_node(p + GUARD, r->size, r->oid, r->xid, r->type, r->subtype, r->level, r->root, r->fixed, r->key_size,
                        r->value_size, r->info.bytes, r->info.length, r->data.bytes, r->data.length, r->numbers.bytes, r->lengths);

    while (i < whole && p[i] == expected(r, second, i))
        i++;
    if (answer != r->answer)
        printf("%s differs: the answer is %" PRIu32 " and not %" PRIu32 "\n", r->name, answer, r->answer);
    else if (i < whole)
        printf("%s differs: byte %td of the node is %u and not %u\n", r->name, (ptrdiff_t)i - GUARD, p[i], expected(r, second, i));
    else if (!unchanged(&r->info) || !unchanged(&r->data) || !unchanged(&r->numbers))
        printf("%s differs: what is only read is changed\n", r->name);
    else
        ok = 1;
    free(p);
    return ok;
}

/* The next request's line, if there is one. */
static int next(struct request *r)
{
    int read = scanf("%255s %zu %" SCNu64 " %" SCNu64 " %" SCNu32 " %" SCNu32 " %" SCNu16 " %d %d %" SCNu32 " %" SCNu32
                     " %zu %zu %zu %" SCNu32, r->name, &r->size, &r->oid, &r->xid, &r->type, &r->subtype, &r->level, &r->root,
                     &r->fixed, &r->key_size, &r->value_size, &r->info.length, &r->data.length, &r->lengths, &r->answer);
    return read == 15 && getchar() == '\n';
}

static void release(struct request *r)
{
    struct lent *all[] = {&r->info, &r->data, &r->numbers};
    for (size_t i = 0; i < sizeof all / sizeof *all; i++) {
        free(all[i]->bytes);
        free(all[i]->copy);
    }
    free(r->node);
}

int main(void)
{
    struct request request;
    size_t requests = 0, differ = 0;

    while (next(&request)) {
        size_t length = request.answer == BUILD_NODE_BUILT ? request.size : 0;
        request.info = lend(request.info.length);
        request.data = lend(request.data.length);
        request.numbers = lend(request.lengths * sizeof(uint64_t));
        request.node = allocate(length);
        get(request.node, length);

        requests++;
        if (run(&request, 0) && run(&request, 1))
            printf("%s agrees\n", request.name);
        else
            differ++;
        fflush(stdout);
        release(&request);
    }
    if (!feof(stdin) || requests == 0) {
        fprintf(stderr, "replay_nodes: no request, or a line that names none\n");
        return 2;
    }
    printf("%zu nodes, %zu differ\n", requests, differ);
    return differ ? 1 : 0;
}

/* A sign's table, its objects written in one call: a leaf, linked by two objects, which the root links; packed. Then a batch that ends early.
 * Built and run from the repository's folder, after tools/library:
 *     cc -Iinclude examples/batch.c target/staticlib/libcapi.a -o batch && ./batch */
#include "scoterlime.h"
#include <stdio.h>
#include <stdlib.h>

enum { OBJECTS = 4, LINKS = 4, STORE = 12, CLOSES = 5 };
enum { OPEN = 1, PUT, LINK, LINK_OWN, CLOSE, DROP };

static uint8_t store[STORE];
static uint32_t *records, ids[CLOSES];
static uint64_t *work;
static size_t r, w;

static void *lent(size_t count, size_t size) {
    void *area = calloc(count, size);
    if (!area)
        exit(1);
    return area;
}

static unsigned long long number(uint64_t n) {
    return n;
}

/* Makes the calls, and tells how far they came and which ids the closes told. Any other number than the one looked for ends the program. */
static void batch(uint64_t expected, const uint32_t *calls, size_t c, const char *bytes, size_t b) {
    scoterlime_batch_answer a = scoterlime_batch(store, sizeof store, records, r, calls, c, (const uint8_t *)bytes, b, ids, CLOSES, work, w);
    printf("batch  number %llu, %llu calls, held: %llu bytes, %llu links, %llu closed, %llu open\n", number(a.number), number(a.calls), number(a.bytes), number(a.links),
           number(a.objects), number(a.depth));
    printf("       ids");
    for (uint64_t k = 0; k < a.ids; k++)
        printf(" %lu", (unsigned long)ids[k]);
    printf("\n");
    if (a.number != expected)
        exit(1);
}

int main(void) {
    /* Links lead to what a close of the same batch told: the leaf is close 0, and close 2 is the same object. */
    static const uint32_t calls[] = {
        OPEN, PUT, 1, CLOSE,                                       /* d */
        OPEN, PUT, 1, LINK_OWN, 2, 0, 0, CLOSE,                    /* b */
        OPEN, PUT, 1, CLOSE,                                       /* d again */
        OPEN, PUT, 1, LINK_OWN, 2, 2, 0, CLOSE,                    /* c */
        OPEN, PUT, 1, LINK_OWN, 2, 1, 0, LINK_OWN, 2, 3, 0, CLOSE, /* a */
    };
    /* The store is full: the put is refused, and the drop behind it is not reached. */
    static const uint32_t more[] = {OPEN, PUT, 1, DROP};
    static const uint32_t forget[] = {DROP};

    r = scoterlime_records_need(OBJECTS, LINKS);
    records = lent(r, sizeof *records);
    w = scoterlime_batch_need(OBJECTS, LINKS);
    work = lent(w, sizeof *work);
    if (scoterlime_start(store, sizeof store, records, r, OBJECTS, LINKS).number)
        return 1;
    batch(0, calls, sizeof calls / sizeof *calls, "dbdca", 5);
    uint32_t root = ids[CLOSES - 1];
    batch(6, more, sizeof more / sizeof *more, "x", 1);
    batch(0, forget, 1, "", 0);

    uint8_t out[STORE];
    size_t packing = scoterlime_work_need(OBJECTS, LINKS, 0);
    uint64_t *memory = lent(packing, sizeof *memory);
    scoterlime_answer packed = scoterlime_pack(store, sizeof store, records, r, root, 0, out, sizeof out, memory, packing);
    if (packed.number)
        return 1;
    printf("table ");
    for (uint64_t k = 0; k < packed.length; k++)
        printf(" %02x", out[k]);
    printf("\n");
    free(memory);
    free(work);
    free(records);
    return 0;
}

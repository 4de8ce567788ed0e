/* A sign's table: one leaf shared by two middle objects under one root, packed; then a refusal; then a table that packs only with copies.
 * Built and run from the repository's folder, after tools/library:
 *     cc -Iinclude examples/sign.c target/staticlib/libcapi.a -o sign && ./sign */
#include "scoterlime.h"
#include <stdio.h>
#include <stdlib.h>
#include <string.h>

enum { OBJECTS = 4, LINKS = 5, LONG = 40000, MOST = 2 };

/* The two areas that a session lives in. */
typedef struct {
    uint8_t *store;
    size_t n;
    uint32_t *records;
    size_t r;
} areas;

typedef struct {
    uint32_t width;
    uint32_t id;
} child;

static void tell(const char *call, scoterlime_answer a) {
    printf("%-6s number %llu, held: %llu bytes, %llu links, %llu closed, %llu open\n", call,
           (unsigned long long)a.number, (unsigned long long)a.bytes, (unsigned long long)a.links,
           (unsigned long long)a.objects, (unsigned long long)a.depth);
}

/* A table that lacks an object must not reach the sign: a refusal ends the program, and so does any other answer than the one looked for. */
static scoterlime_answer told(uint64_t number, scoterlime_answer a) {
    if (a.number != number) {
        fprintf(stderr, "told: %llu\n", (unsigned long long)a.number);
        exit(1);
    }
    return a;
}

static scoterlime_answer done(scoterlime_answer a) {
    return told(0, a);
}

static void *lent(size_t count, size_t size) {
    void *area = calloc(count, size);
    if (!area)
        exit(1);
    return area;
}

static areas begin(size_t bytes) {
    size_t r = scoterlime_records_need(OBJECTS, LINKS);
    areas s = {lent(bytes, 1), bytes, lent(r, sizeof(uint32_t)), r};
    tell("start", done(scoterlime_start(s.store, s.n, s.records, s.r, OBJECTS, LINKS)));
    return s;
}

static void end(areas s) {
    free(s.store);
    free(s.records);
}

/* An object of fields to the objects named, whose offsets count from its first byte, behind so many times a byte; its id. */
static uint32_t object(areas s, uint8_t byte, size_t times, const child *children, size_t count) {
    uint8_t *bytes = lent(times, 1);
    memset(bytes, byte, times);
    done(scoterlime_open(s.store, s.n, s.records, s.r));
    done(scoterlime_put(s.store, s.n, s.records, s.r, bytes, times));
    free(bytes);
    for (size_t i = 0; i < count; i++)
        done(scoterlime_link(s.store, s.n, s.records, s.r, children[i].width, children[i].id, 0));
    scoterlime_answer closed = done(scoterlime_close(s.store, s.n, s.records, s.r));
    tell("close", closed);
    printf("       '%c' is object %llu\n", byte, (unsigned long long)closed.id);
    return (uint32_t)closed.id;
}

static void shared_leaf(void) {
    areas s = begin(12);
    size_t w = scoterlime_work_need(OBJECTS, LINKS, 0);
    uint64_t *work = lent(w, sizeof *work);
    child d = {2, object(s, 'd', 1, NULL, 0)};
    child b = {2, object(s, 'b', 1, &d, 1)};
    child again = {2, object(s, 'd', 1, NULL, 0)};
    child c = {2, object(s, 'c', 1, &again, 1)};
    child middle[] = {b, c};
    uint32_t root = object(s, 'a', 1, middle, 2);

    uint8_t out[16];
    scoterlime_answer packed = done(scoterlime_pack(s.store, s.n, s.records, s.r, root, 0, out, sizeof out, work, w));
    tell("pack", packed);
    printf("table ");
    for (uint64_t i = 0; i < packed.length; i++)
        printf(" %02x", out[i]);
    printf("\n");

    /* The store is full: one more byte is refused, and nothing changes. */
    tell("open", done(scoterlime_open(s.store, s.n, s.records, s.r)));
    uint8_t more = 'x';
    tell("put", told(6, scoterlime_put(s.store, s.n, s.records, s.r, &more, 1)));
    tell("drop", done(scoterlime_drop(s.store, s.n, s.records, s.r)));

    /* An output that is too short is left as it was. */
    tell("pack", told(10, scoterlime_pack(s.store, s.n, s.records, s.r, root, 0, out, 11, work, w)));
    free(work);
    end(s);
}

/* The root and two long objects link one leaf by fields of two bytes, and no order brings it near all three. With two copies each has its own. */
static void copies(void) {
    areas s = begin(2 * LONG + 16);
    size_t o = s.n + MOST;
    uint8_t *out = lent(o, 1);
    child leaf = {2, object(s, 's', 1, NULL, 0)};
    child first = {4, object(s, 'p', LONG, &leaf, 1)};
    child second = {4, object(s, 'q', LONG, &leaf, 1)};
    child all[] = {leaf, first, second};
    uint32_t root = object(s, 'r', 1, all, 3);

    for (uint32_t allowed = 0; allowed <= MOST; allowed++) {
        size_t w = scoterlime_work_need(OBJECTS, LINKS, allowed);
        uint64_t *work = lent(w, sizeof *work);
        scoterlime_answer a = scoterlime_pack(s.store, s.n, s.records, s.r, root, allowed, out, o, work, w);
        tell("pack", told(allowed < MOST ? 11 : 0, a));
        if (a.number == 11)
            printf("       up to %lu copies: the field at %llu of object %llu would need %llu\n", (unsigned long)allowed,
                   (unsigned long long)a.field, (unsigned long long)a.parent, (unsigned long long)a.needed);
        else
            printf("       %llu bytes with %llu copies, %llu objects in all\n", (unsigned long long)a.length, (unsigned long long)a.copies,
                   (unsigned long long)a.placed);
        free(work);
    }
    free(out);
    end(s);
}

int main(void) {
    shared_leaf();
    copies();
    return 0;
}

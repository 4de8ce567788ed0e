/* A GSUB table from standard input, read into a session and packed: how many objects it has, equal ones counted once, and how long it is then.
 * Built and run from the repository's folder, after tools/library:
 *     cc -Iinclude examples/gsub.c target/staticlib/libcapi.a -o gsub && ./gsub < crates/repack/stdin */
#include "scoterlime.h"
#include <stdio.h>
#include <stdlib.h>

enum { OBJECTS = 2048, LINKS = 8192, LONGEST = 65536 };

static uint8_t table[LONGEST], store[LONGEST], out[LONGEST];

static unsigned long long number(uint64_t n) {
    return n;
}

int main(void) {
    size_t t = fread(table, 1, sizeof table, stdin);
    size_t r = scoterlime_records_need(OBJECTS, LINKS), w = scoterlime_work_need(OBJECTS, LINKS, 0);
    uint32_t *records = calloc(r, sizeof *records);
    uint64_t *work = calloc(w, sizeof *work);
    if (!records || !work)
        return 1;

    scoterlime_read_answer a = scoterlime_read_gsub_whole(store, sizeof store, records, r, OBJECTS, LINKS, table, t);
    if (a.number) {
        /* 15 alone comes with a place: where the table has what is not read */
        printf("refused %llu, place %llu\n", number(a.number), number(a.place));
        return 1;
    }
    printf("%llu objects, %llu links, %llu bytes\n", number(a.objects), number(a.links), number(a.bytes));

    scoterlime_answer p = scoterlime_pack(store, sizeof store, records, r, (uint32_t)a.id, 0, out, sizeof out, work, w);
    if (p.number) {
        printf("not packed: %llu\n", number(p.number));
        return 1;
    }
    printf("%zu bytes packed as %llu\n", t, number(p.length));
    free(work);
    free(records);
    return 0;
}

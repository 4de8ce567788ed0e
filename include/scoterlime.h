/* Scoterlime: packs the objects of an OpenType layout table, equal ones once, with the offsets between them filled in.
 *
 * A session lives in two areas that the caller lends to every call: a byte store and a record store. No call keeps a pointer, and there is no
 * other state: two sessions in different areas know nothing of each other.
 *
 * The caller's duties, in every call:
 * - a pointer is good for its length: n bytes at store, r words of 32 bits at records, k or b bytes at bytes, o bytes at out, w words of 64 bits
 *   at work, c words of 32 bits at calls and i at ids, t bytes at table or at text, h bytes at head, each readable, and writable where it is not const, and aligned for its type. A pointer with a length of 0 may not be null
 *   either: give any aligned address;
 * - the areas lent to one call do not overlap;
 * - no other thread reads or writes them during the call (areas that a call only reads may be read by others).
 *
 * What the areas hold is no duty: on any contents and in any order, every call ends and answers. A session goes on as long as each call gets both
 * stores as the call before left them, with the same n and an r no shorter than the need. Stores that hold no sound session are told 12.
 *
 * A refused call changes nothing, with three exceptions: pack's 10 and 11 clear the needed part of the work memory, a refused read or promotion leaves a session
 * that is freshly started (and a promotion the work memory as its packs left it), and of a batch the calls before the one that ends it stand. Where several reasons apply, the first in the call's list of refusals is told.
 */
#ifndef SCOTERLIME_H
#define SCOTERLIME_H

#include <stddef.h>
#include <stdint.h>

#ifdef __cplusplus
extern "C" {
#endif

/* What a call tells. number is 0 for a call that was carried out, or the reason for which it was refused:
 *
 *    1  nothing is open
 *    2  64 objects are open
 *    3  the width is not 2, 3 or 4, or the inner start is past the field
 *    4  the id is not a closed object's
 *    5  the open object has no bytes
 *    6  the byte store has no room for the new bytes
 *    7  the held links are at the link limit
 *    8  a new object, and piece_limit is reached
 *    9  an object is open
 *   10  the output is shorter than the table
 *   11  in none of the three orders every offset fits its field, and no copy that is allowed cures it
 *   12  the stores do not hold a sound session
 *   13  a limit, a number of copies or a lent area is outside its range
 *   16  a field of the open object can be filled in no order: from its inner start on the object has more bytes than its width can count
 *
 * Beside 0 to 11 and 16 stand the counts after the call: bytes and links held by open and closed objects, and how many objects are closed (objects) and open (depth).
 * Beside 12 and 13 they are 0. Each other value is 0 but where a call below names it. */
typedef struct {
    uint64_t number;
    uint64_t bytes;
    uint64_t links;
    uint64_t objects;
    uint64_t depth;
    uint64_t id;     /* close: the closed object's id */
    uint64_t length; /* pack: the table's length in bytes */
    uint64_t parent; /* pack's 11: the id of the object that has the field (a copy has its original's), */
    uint64_t field;  /* the field's place in that object, */
    uint64_t needed; /* and the offset that does not fit it */
    uint64_t copies; /* pack: how many copies were made */
    uint64_t placed; /* pack: how many objects the table has */
} scoterlime_answer;

/* How many words of 32 bits a session with these limits needs at records. More is allowed; the surplus is never touched. */
uint64_t scoterlime_records_need(uint32_t piece_limit, uint32_t link_limit);

/* How many words of 64 bits a pack that allows so many copies, of a session with these limits, needs at work. More is allowed; the surplus is
 * never touched. For more than 1,024 copies, which no pack accepts, it tells the need of 1,024.
 * It grows with copies * link_limit, and a pack clears all of it: allow no more copies than may be wanted. */
uint64_t scoterlime_work_need(uint32_t piece_limit, uint32_t link_limit, uint32_t copies);

/* Begins a session, whatever the stores held: clears the byte store and the needed words at records.
 * Refused: 13 (piece_limit is not 1 to 16,384, link_limit is over 65,536, n is not 1 to 16,777,216, or r is short of the need). */
scoterlime_answer scoterlime_start(uint8_t *store, size_t n, uint32_t *records, size_t r, uint32_t piece_limit, uint32_t link_limit);

/* Opens an object of no bytes, inside the innermost open one if there is one.
 * Refused: 12, 2. */
scoterlime_answer scoterlime_open(uint8_t *store, size_t n, uint32_t *records, size_t r);

/* Appends k bytes to the innermost open object.
 * Refused: 12, 1, 6. */
scoterlime_answer scoterlime_put(uint8_t *store, size_t n, uint32_t *records, size_t r, const uint8_t *bytes, size_t k);

/* Appends an offset field of width 2, 3 or 4 to the innermost open object; pack fills it with the way to the closed object id, counted from
 * `inner` bytes into the object: 0 for its first byte, the size of a header for the byte behind it. inner is at most the object's size now.
 * Refused: 12, 1, 3, 4, 7, 6. */
scoterlime_answer scoterlime_link(uint8_t *store, size_t n, uint32_t *records, size_t r, uint32_t width, uint32_t id, uint32_t inner);

/* Closes the innermost open object and tells its id: that of the closed object with the same bytes and links if there is one, else the next,
 * counted from 0.
 * Refused: 12, 1, 5, 16, 8. A refused object stays open. */
scoterlime_answer scoterlime_close(uint8_t *store, size_t n, uint32_t *records, size_t r);

/* Forgets the innermost open object.
 * Refused: 12, 1. */
scoterlime_answer scoterlime_drop(uint8_t *store, size_t n, uint32_t *records, size_t r);

/* Tells the counts.
 * Refused: 12. */
scoterlime_answer scoterlime_tally(const uint8_t *store, size_t n, const uint32_t *records, size_t r);

/* Writes the table of the closed object id, itself first and then all that it reaches, to the first length bytes at out; the other bytes there stand.
 * Where no order fits as it is, a field that cannot reach its object gets a copy of it, if other fields lead to that object too, as long as no more
 * than `copies` are made; each makes the table longer by the object's size, and out must have room for it. 0 allows none.
 * What work held does not matter; its needed words are 0 after 0, 10 and 11. The session does not change.
 * Refused: 12, 13 (copies is over 1,024, or w is short of the need for so many), 9, 4, 11, 10. */
scoterlime_answer scoterlime_pack(const uint8_t *store, size_t n, const uint32_t *records, size_t r, uint32_t id, uint32_t copies,
                                  uint8_t *out, size_t o, uint64_t *work, size_t w);

/* What a read tells. number is 0, or the reason for which it was refused: 6, 7, 8, 13 or 16 as above, or
 *
 *   15  a field of the table passes its end, or is a version, a format, a lookup type or an offset that is not read
 *
 * Beside 0 stand the counts and the id. Each other value is 0 but the place beside 15. */
typedef struct {
    uint64_t number;
    uint64_t bytes;
    uint64_t links;
    uint64_t objects;
    uint64_t depth;
    uint64_t id;    /* the root's: the object of the table's header */
    uint64_t place; /* 15: where in the table the field stands */
} scoterlime_read_answer;

/* Begins a session, whatever the stores held, and writes the GSUB table of t bytes into it, one object for each of its tables, equal ones once: version 1.0,
 * lookups of type 1 and of type 7 whose Extensions lead to type 1, feature parameters and lookup orders none. The root can be packed, and other objects can be written beside it.
 * A table that offsets lead to several times is read each time: the time is not bounded by t alone (docs/RULES.md, 11.12).
 * Refused: 13 as start, which changes nothing; then the first of 15, 6, 7, 8 and 16 that is met, which leaves the session as freshly started. */
scoterlime_read_answer scoterlime_read_gsub(uint8_t *store, size_t n, uint32_t *records, size_t r, uint32_t piece_limit, uint32_t link_limit,
                                            const uint8_t *table, size_t t);

/* What a promotion tells. number is 0, or the reason for which it was refused: 6, 7, 8, 10, 11, 13, 15 or 16 as above.
 * Beside 0 stand the counts, the id, the length and how many lookups are promoted. Each other value is 0, but the place beside 15 and the link beside 11. */
typedef struct {
    uint64_t number;
    uint64_t bytes;
    uint64_t links;
    uint64_t objects;
    uint64_t depth;
    uint64_t id;       /* the root's: the object of the table's header */
    uint64_t length;   /* the packed table's length in bytes */
    uint64_t parent;   /* 11: in the trial with all lookups promoted, the id of the object that has the field (the session holds it no longer), */
    uint64_t field;    /* the field's place in that object, */
    uint64_t needed;   /* and the offset that does not fit it */
    uint64_t place;    /* 15: where in the table the field stands */
    uint64_t promoted; /* how many of the last lookups are promoted: the fewest that do */
} scoterlime_promote_answer;

/* Reads the GSUB table of t bytes as scoterlime_read_gsub does, and packs it without copies to the first length bytes at out; the other bytes there stand. Where no order
 * fits, it begins again with the last lookup promoted, the last two and so on, up to all of them: a promoted lookup is of type 7, with an Extension before each of its
 * subtables, whose offset of four bytes reaches any place. Lookups of type 7 count among the last ones, and are left as they are. No lookup's substitutes change.
 * The session then holds the table as it was packed, and has to have room for the Extensions too: at most 8 bytes, an object and a link for each. The work memory is pack's,
 * for 0 copies; what it held does not matter.
 * Each trial is a read and a pack of the whole table: the time is up to as many times theirs as there are lookups, and one more.
 * Refused: 13 as start, which changes nothing; then the first that is met in the first trial, or in a later one, which leaves the session as freshly started and out as it
 * was: 15, 6, 7, 8 and 16 as a read; 13 (w is short of the need); 10 (out is shorter than the table with the fewest promoted that fits); 11 (none fits, with all promoted
 * either). The needed words at work are 0 once a pack was told 0, 10 or 11. */
scoterlime_promote_answer scoterlime_promote_gsub(uint8_t *store, size_t n, uint32_t *records, size_t r, uint32_t piece_limit, uint32_t link_limit,
                                                  const uint8_t *table, size_t t, uint8_t *out, size_t o, uint64_t *work, size_t w);

/* As scoterlime_read_gsub, for GSUB tables of versions 1.0 and 1.1 with every lookup type, behind Extensions or not, with feature variations, and with the parameters of 'size',
 * stylistic sets and character variants (docs/RULES.md, section 16).
 * A table made for it can keep a whole read busy for years in large limits: take a small link limit for tables of strangers (16.7).
 * Refused: the same. */
scoterlime_read_answer scoterlime_read_gsub_whole(uint8_t *store, size_t n, uint32_t *records, size_t r, uint32_t piece_limit, uint32_t link_limit,
                                                  const uint8_t *table, size_t t);

/* As scoterlime_promote_gsub, for the tables that scoterlime_read_gsub_whole reads. The Extensions of a promoted lookup have its own type.
 * Refused: the same. */
scoterlime_promote_answer scoterlime_promote_gsub_whole(uint8_t *store, size_t n, uint32_t *records, size_t r, uint32_t piece_limit, uint32_t link_limit,
                                                        const uint8_t *table, size_t t, uint8_t *out, size_t o, uint64_t *work, size_t w);

/* What a batch tells. number is 0, 12 or 13 as above, or why the batch ended before its last word: 1 to 8 and 16 as above, of the call that was refused, or
 *
 *   19  the next words are no call
 *
 * Beside 12 and 13 each other value is 0. Beside the others stand the counts after the last call that was carried out. */
typedef struct {
    uint64_t number;
    uint64_t bytes;
    uint64_t links;
    uint64_t objects;
    uint64_t depth;
    uint64_t calls; /* how many calls were carried out: the refused one, or what is no call, is the next */
    uint64_t ids;   /* how many words at ids were written */
} scoterlime_batch_answer;

/* How many words of 64 bits a batch of a session with these limits needs at work: 4 for each object. More is allowed; the surplus is never touched. */
uint64_t scoterlime_batch_need(uint32_t piece_limit, uint32_t link_limit);

/* Carries out many calls in turn. Each is as the single call would be, and so are the stores afterwards, but soundness is tested once, and an equal closed object is
 * found without looking at all of them. The calls are words, one behind the other:
 *
 *   1                    open
 *   2, k                 put of the next k of the b bytes
 *   3, width, id, inner  link to the closed object id
 *   4, width, j, inner   link to the object whose id the close j of this batch told, counted from 0
 *   5                    close: its id is the next word at ids
 *   6                    drop
 *
 * The ids that the closes told stand at the front of ids; the other words there stand. What work held does not matter; its needed words are 0 afterwards, but beside 12
 * and 13.
 * Refused: 12, 13 (w is short of the need), which change nothing; then the first call that is refused or is none, which changes nothing either and ends the batch: those
 * before it stand. Words are no call (19) where the first is none of these, some are missing, fewer than k bytes are left, close j is not among those carried out, or ids has
 * no word left for a close. */
scoterlime_batch_answer scoterlime_batch(uint8_t *store, size_t n, uint32_t *records, size_t r, const uint32_t *calls, size_t c, const uint8_t *bytes, size_t b,
                                         uint32_t *ids, size_t i, uint64_t *work, size_t w);

/* What a send tells. length is 0 beside a refusal. */
typedef struct {
    uint64_t number;
    uint64_t length; /* how many bytes were written */
} scoterlime_sent;

/* What a feed tells. number is 0, 10 or 13 as above, or
 *
 *   17  the stretch of text is not the awaited frame
 *   18  no refusal: no stretch ended in the text */
typedef struct {
    uint64_t number;
    uint64_t taken;   /* how many bytes of the text were taken */
    uint64_t written; /* 0: how many bytes the accepted frame has; beside any other number 0 */
    uint64_t whole;   /* 1 once all frames are in, else 0; the table is as long as all that was written */
} scoterlime_fed;

/* Writes a table of 1 to 16,777,216 bytes as frames of text to the front of out; the other bytes there stand.
 * A frame has up to 512 bytes of the table, and its text at most 1,066: 2 for each byte, and at most 42 beside them.
 * Refused: 13 (t is out of range), 10 (out is shorter than the text). */
scoterlime_sent scoterlime_send(const uint8_t *table, size_t t, uint8_t *out, size_t o);

/* How many bytes a head has. More is allowed; the surplus is never touched. A head whose first 16 bytes are 0 awaits the first frame. */
uint64_t scoterlime_head_need(void);

/* Takes text up to and with the first line feed that ends a line that starts with "check=", and tells what the stretch up to there is: 0 is the awaited frame, whose
 * bytes are then at 512 times its number at out, and 10 is that too, but it has no room there. All of the text was taken if it is 18. Feed the rest, and what comes
 * next, with the same head and the same out: how the text is cut changes nothing.
 * Refused: 13 (h is short of the need; nothing is taken), 17, 10, and the next frame awaited is as before. */
scoterlime_fed scoterlime_feed(uint8_t *head, size_t h, const uint8_t *text, size_t t, uint8_t *out, size_t o);

#ifdef __cplusplus
}
#endif

#endif

/* The calls of a site, for C and C++, over the proved archive libhost.a.
 *
 * A site has 16 classes of 64 cells and 128 slots for requests. The host owns the site and two
 * runs of 1,024 cells, committed and working; cell k of class c stands at 64c + k. It hands the
 * site in by value and goes on with the one handed back; the cells and the record are lent.
 *
 * Any site, cells, record and numbers are taken. What is wrong is refused: the site comes back and
 * the cells stay as they were. Nothing has to be checked before a call, but for what C cannot say:
 * each pointer points to as many elements as its length says and is not null, not even where the
 * length is 0; the answer has six numbers; what a call may write overlaps nothing else it is lent.
 *
 * A record may also be typed and shown as a text; these two calls have no site and no cells.
 *
 * A site is plain data. It may be copied, stored and brought back; one that is damaged is refused.
 * A call that is not given const cells may change them, and keeps no pointer.
 *
 * The archive is for x86-64. A thread needs about 70 KiB of stack in all to make any call: the call
 * itself takes less than three sites, and the sites that the caller hands in and back stand there too.
 */
#ifndef SHPENDORAK_H
#define SHPENDORAK_H

#include <stddef.h>
#include <stdint.h>

#ifdef __cplusplus
extern "C" {
#endif

/* Sizes. */
#define SHPENDORAK_CLASSES 16       /* classes are 0 to 15 */
#define SHPENDORAK_CELLS 64         /* cells of a class are 0 to 63 */
#define SHPENDORAK_RUN_LENGTH 1024  /* cells in a run: 16 times 64 */
#define SHPENDORAK_SLOTS 128        /* slots are 0 to 127, shared by all classes */
#define SHPENDORAK_QUERIES 8        /* so many queries may be open, at places 1 to 8 */
#define SHPENDORAK_CLASS_PLACES 136 /* queue places of a class: 128 requests, 8 entries */
#define SHPENDORAK_PLACES 2176      /* queue places: 16 times 136 */
#define SHPENDORAK_KEPT 256         /* ids of so many of the last confirmations are kept */
#define SHPENDORAK_MOST_OPS 7       /* a request has 1 to 7 operations */
#define SHPENDORAK_RECORD_BYTES 64  /* bytes of a request record */
#define SHPENDORAK_LONGEST_TEXT 168 /* bytes of the longest text of a record */
#define SHPENDORAK_NUMBERS 6        /* numbers of an answer */

/* The request record, 64 bytes, numbers low byte first:
 *   0-3 id, not 0;  4 class;  5 number of operations, 1 to 7;  6-7 zero;  8-63 seven operations.
 * An operation, 8 bytes: code, cell, second cell, zero, then a 4-byte amount. The second cell is
 * zero except for a move, where it differs from the cell. Operations past the number are zero. */
enum shpendorak_code {
    SHPENDORAK_PUT = 1,  /* the cell becomes the amount */
    SHPENDORAK_ADD = 2,  /* the amount is added to the cell modulo 2^32 */
    SHPENDORAK_NEED = 3, /* declines if the cell is less than the amount */
    SHPENDORAK_MOVE = 4  /* takes the amount from the cell for the second cell, or declines */
};

/* What an answer is: its first number. The others follow in this order, then zeros. */
enum shpendorak_answer {
    SHPENDORAK_REFUSED = 0,     /* the refusal's number, and for BAD_TEXT the first bad line */
    SHPENDORAK_QUEUED = 1,      /* id, class, place in its queue (1 is the head), slot */
    SHPENDORAK_STEPPED = 2,     /* id, operations done */
    SHPENDORAK_EXECUTED = 3,    /* id */
    SHPENDORAK_COMMITTED = 4,   /* id, number, mark (which operation declined first, or 0), slot,
                                 * times put back */
    SHPENDORAK_WAITING = 5,     /* id, W, the id put back or 0 */
    SHPENDORAK_VALUE = 6,       /* the committed cell */
    SHPENDORAK_TO_DO = 7,       /* W, times put back */
    SHPENDORAK_UNCONFIRMED = 8, /* times put back */
    SHPENDORAK_STARTED = 9,     /* no numbers */
    SHPENDORAK_WRITTEN = 10,    /* the length of the text or record written */
    SHPENDORAK_BEGUN = 11,      /* the query's place, 1 to 8 */
    SHPENDORAK_ENTRY = 12       /* the query's place, the class; the cells stand in `entry` */
};

/* Why a call did not act. Where several apply, the smallest is given; but 14 comes between 4 and 5. */
enum shpendorak_refusal {
    SHPENDORAK_WRONG_CELLS = 1,       /* either run of cells is not 1,024 long: all with cells */
    SHPENDORAK_UNSOUND = 2,           /* the site is not sound: all with a site */
    SHPENDORAK_BAD_RECORD = 3,        /* not 64 bytes, or a rule is broken: offer, write_text */
    SHPENDORAK_ID_QUEUED = 4,         /* the id is queued: offer */
    SHPENDORAK_SITE_FULL = 5,         /* 128 requests are queued: offer */
    SHPENDORAK_NUMBERS_USED_UP = 6,   /* 4,294,967,295 confirmations were taken: confirm */
    SHPENDORAK_WRONG_NUMBER = 7,      /* the number is not the confirmations plus 1: confirm */
    SHPENDORAK_ID_NOT_QUEUED = 8,     /* the id is not queued: confirm, look */
    SHPENDORAK_CONFIRMED_ALREADY = 9, /* the request is confirmed already: confirm */
    SHPENDORAK_NO_SUCH_CLASS = 10,    /* the class is above 15: work, read */
    SHPENDORAK_NOTHING_TO_DO = 11,    /* the queue is empty, or its head is executed: work */
    SHPENDORAK_NO_SUCH_CELL = 12,     /* the cell is above 63: read */
    SHPENDORAK_ID_KEPT = 14,          /* the id is among the last 256 confirmed: offer */
    SHPENDORAK_BAD_TEXT = 15,         /* the text is no record's: read_text */
    SHPENDORAK_SHORT_BUFFER = 16,     /* the buffer is shorter than the result: both of texts */
    SHPENDORAK_EMPTY_MASK = 17,       /* the mask names no class: query */
    SHPENDORAK_QUERIES_OPEN = 18,     /* 8 queries are open: query */
    SHPENDORAK_QUERIES_USED_UP = 24   /* 4,294,967,295 queries were begun: query */
};

/* One operation of a request. */
typedef struct shpendorak_op {
    uint8_t code;    /* enum shpendorak_code */
    uint8_t cell;    /* 0 to 63 */
    uint8_t second;  /* the second cell of a move, else 0 */
    uint32_t amount;
} shpendorak_op;

/* A request and how far it has come. A free slot is all zero. */
typedef struct shpendorak_slot {
    uint32_t id;                            /* 0 in a free slot */
    uint8_t class_number;                   /* its class */
    uint8_t count;                          /* how many operations it has */
    shpendorak_op ops[SHPENDORAK_MOST_OPS]; /* those past the count are zero */
    uint32_t number;                        /* its definitive number, 0 while it waits */
    uint8_t done;                           /* how many operations are done */
    uint8_t mark;                           /* which done operation declined first, 1 to 7, or 0 */
    uint64_t backs;                         /* how often it was put back since its offer */
} shpendorak_slot;

/* A query: the classes that it has still to read, and when it began. A free one is all zero. */
typedef struct shpendorak_open_query {
    uint16_t classes; /* bit c is class c */
    uint32_t begun;   /* the count of confirmations when it began */
} shpendorak_open_query;

/* A site. Place p of class c, from 0, stands at 136c + p of the queue: a slot's number, or for an
 * entry of a query 128 plus the query's place less 1. */
typedef struct shpendorak_site {
    shpendorak_slot slots[SHPENDORAK_SLOTS];
    uint8_t queue[SHPENDORAK_PLACES];  /* places past a queue's end are zero */
    uint8_t lens[SHPENDORAK_CLASSES];  /* how long each queue is */
    uint64_t low;                      /* the map of used slots: bit i is slot i */
    uint64_t high;                     /* and of slots 64 to 127 */
    uint32_t confirmations;            /* how many confirmations were taken */
    uint32_t commits;                  /* how many requests committed */
    uint32_t kept[SHPENDORAK_KEPT];    /* ids last confirmed: that of number n at n mod 256 */
    shpendorak_open_query queries[SHPENDORAK_QUERIES]; /* by their place less 1 */
    uint32_t begun;                    /* how many queries were begun */
    uint16_t sums[SHPENDORAK_CLASSES]; /* operations and entries still to do by the confirmed */
} shpendorak_site;

/* Fresh: clears all 2,048 cells and hands back a site with nothing queued and both counts 0.
 * Answers STARTED. Refuses WRONG_CELLS: no cell is touched, and the site handed back is empty but
 * does not count as a fresh one. */
shpendorak_site shpendorak_fresh(uint32_t *committed, size_t committed_len,
                                 uint32_t *working, size_t working_len,
                                 uint64_t answer[SHPENDORAK_NUMBERS]);

/* Offer, when a record came off the wire: the lowest-numbered free slot takes it, and the request
 * joins the end of its class queue, waiting.
 * Answers QUEUED id, class, place, slot.
 * Refuses WRONG_CELLS, UNSOUND, BAD_RECORD, ID_QUEUED, ID_KEPT, SITE_FULL, in this order. */
shpendorak_site shpendorak_offer(shpendorak_site site,
                                 const uint32_t *committed, size_t committed_len,
                                 const uint32_t *working, size_t working_len,
                                 const uint8_t *booking, size_t booking_len,
                                 uint64_t answer[SHPENDORAK_NUMBERS]);

/* Confirm, when an id came with its definitive number: an executed head commits. Any other request
 * moves to directly before the first waiting one; a waiting head that is another request is put
 * back: it has nothing done, and was put back once more.
 * Answers COMMITTED id, number, mark, slot, times put back; or WAITING id, W, put-back: the request
 * commits at exactly the W-th work call for its class that is not refused.
 * Refuses WRONG_CELLS, UNSOUND, NUMBERS_USED_UP, WRONG_NUMBER, ID_NOT_QUEUED, CONFIRMED_ALREADY. */
shpendorak_site shpendorak_confirm(shpendorak_site site,
                                   uint32_t *committed, size_t committed_len,
                                   uint32_t *working, size_t working_len,
                                   uint64_t id, uint64_t number,
                                   uint64_t answer[SHPENDORAK_NUMBERS]);

/* Work: the head of a class does its next operation on the working cells. If that was its last, a
 * confirmed head commits: its class's working cells become the committed ones and its slot is free.
 * Where the head is an entry of a query, it is read and taken away, and `entry` gets the 64 committed
 * cells of the class; in every other case `entry` stays as it was.
 * Answers STEPPED id, done; EXECUTED id, if it was the last of a waiting head; COMMITTED id,
 * number, mark, slot, times put back; or ENTRY place, class.
 * Refuses WRONG_CELLS, UNSOUND, NO_SUCH_CLASS, NOTHING_TO_DO. */
shpendorak_site shpendorak_work(shpendorak_site site,
                                uint32_t *committed, size_t committed_len,
                                uint32_t *working, size_t working_len,
                                uint64_t class_number,
                                uint32_t entry[SHPENDORAK_CELLS],
                                uint64_t answer[SHPENDORAK_NUMBERS]);

/* Query, for a report over several classes at one point of the definitive order: in the queue of each
 * class whose bit is set in the mask (bit c is class c) an entry goes after the confirmed and before
 * the waiting requests, and a waiting head is put back. Work calls read the entries; all of them
 * together show the cells after the definitive numbers taken before the query began. An entry counts
 * 1 in the W of every request behind it. The query is open until its last entry is read.
 * Answers BEGUN place: the lowest free one, 1 to 8.
 * Refuses WRONG_CELLS, UNSOUND, EMPTY_MASK, QUERIES_OPEN, QUERIES_USED_UP. */
shpendorak_site shpendorak_query(shpendorak_site site,
                                 const uint32_t *committed, size_t committed_len,
                                 uint32_t *working, size_t working_len,
                                 uint16_t mask,
                                 uint64_t answer[SHPENDORAK_NUMBERS]);

/* Read: a committed cell. The site comes back as it was.
 * Answers VALUE.
 * Refuses WRONG_CELLS, UNSOUND, NO_SUCH_CLASS, NO_SUCH_CELL. */
shpendorak_site shpendorak_read(shpendorak_site site,
                                const uint32_t *committed, size_t committed_len,
                                const uint32_t *working, size_t working_len,
                                uint64_t class_number, uint64_t cell,
                                uint64_t answer[SHPENDORAK_NUMBERS]);

/* Look: how far a queued request has come. The site comes back as it was.
 * Answers TO_DO W, times put back, if it is confirmed; or UNCONFIRMED times put back.
 * Refuses WRONG_CELLS, UNSOUND, ID_NOT_QUEUED. */
shpendorak_site shpendorak_look(shpendorak_site site,
                                const uint32_t *committed, size_t committed_len,
                                const uint32_t *working, size_t working_len,
                                uint64_t id,
                                uint64_t answer[SHPENDORAK_NUMBERS]);

/* The text of a record: a line with id and class, then a line for each operation with its name
 * (put, add, need, move), cell, second cell for a move only, and amount, as in
 *   7 3
 *   put 0 100
 *   move 1 2 5
 * Numbers are decimal without leading zeros, single blanks split, and each line, also the last,
 * ends with a newline. No zero byte ends a text. A record has one text only, of at most
 * SHPENDORAK_LONGEST_TEXT bytes, and nothing else is read. */

/* Write text: writes the text of a record into the front of a lent buffer. Past the text, and on a
 * refusal, nothing is written.
 * Answers WRITTEN length.
 * Refuses BAD_RECORD, SHORT_BUFFER. */
void shpendorak_write_text(const uint8_t *booking, size_t booking_len,
                           uint8_t *text, size_t text_len,
                           uint64_t answer[SHPENDORAK_NUMBERS]);

/* Read text: writes the record of a text into the front of a lent buffer. Past the record, and on a
 * refusal, nothing is written.
 * Answers WRITTEN length, which is SHPENDORAK_RECORD_BYTES.
 * Refuses BAD_TEXT with the first bad line, from 1, a missing one at its place; SHORT_BUFFER. */
void shpendorak_read_text(const uint8_t *text, size_t text_len,
                          uint8_t *booking, size_t booking_len,
                          uint64_t answer[SHPENDORAK_NUMBERS]);

#ifdef __cplusplus
}
#endif

#endif

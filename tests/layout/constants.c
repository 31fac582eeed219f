/* Every constant of the header held to the archive: each kind of answer, each refusal, each operation code and each size is met by
 * calls whose outcome would be another if the constant were. The sizes of arrays in the structs are held by layout.c. */
#include "shpendorak.h"

#include <stdio.h>
#include <string.h>

/* What is lent, with a number more behind each, and the site to go on with. */
static uint32_t committed[SHPENDORAK_RUN_LENGTH + 1], working[SHPENDORAK_RUN_LENGTH + 1];
static size_t run = SHPENDORAK_RUN_LENGTH;
static uint32_t entry[SHPENDORAK_CELLS + 1];
static uint64_t answer[SHPENDORAK_NUMBERS + 1];
static uint8_t record[SHPENDORAK_RECORD_BYTES + 1];
static shpendorak_site site;
static int failed;

#define HOLDS(test)                                                     \
    do {                                                                \
        if (!(test)) {                                                  \
            printf("constants.c, line %d: %s\n", __LINE__, #test);      \
            failed = 1;                                                 \
        }                                                               \
    } while (0)
#define REFUSES(reason) HOLDS(answer[0] == SHPENDORAK_REFUSED && answer[1] == (reason))

/* The calls on the site; each must write all its numbers and none behind them. */
static void asked(void)
{
    memset(answer, 0xff, sizeof answer);
}

static void fresh(void)
{
    asked();
    site = shpendorak_fresh(committed, run, working, run, answer);
}

static void offer(size_t length)
{
    asked();
    site = shpendorak_offer(site, committed, run, working, run, record, length, answer);
}

static void confirm(uint64_t id, uint64_t number)
{
    asked();
    site = shpendorak_confirm(site, committed, run, working, run, id, number, answer);
}

static void work(uint64_t class_number)
{
    asked();
    site = shpendorak_work(site, committed, run, working, run, class_number, entry, answer);
}

static void query(uint16_t mask)
{
    asked();
    site = shpendorak_query(site, committed, run, working, run, mask, answer);
}

static void read_cell(uint64_t class_number, uint64_t cell)
{
    asked();
    site = shpendorak_read(site, committed, run, working, run, class_number, cell, answer);
}

static void look(uint64_t id)
{
    asked();
    site = shpendorak_look(site, committed, run, working, run, id, answer);
}

/* A request of so many operations, each the same. */
static void request(uint32_t id, uint8_t class_number, uint8_t count, const uint8_t op[8])
{
    memset(record, 0, sizeof record);
    memcpy(record, &id, sizeof id);
    record[4] = class_number;
    record[5] = count;
    for (size_t at = 0; at < count && at < SHPENDORAK_MOST_OPS; at++)
        memcpy(record + 8 + 8 * at, op, 8);
}

static const uint8_t put_100[8] = {SHPENDORAK_PUT, 0, 0, 0, 100};

/* Offers, confirms and works off a request of one operation. */
static void book(uint32_t id, uint32_t number, const uint8_t op[8])
{
    request(id, 3, 1, op);
    offer(SHPENDORAK_RECORD_BYTES);
    confirm(id, number);
    work(3);
}

static void answers(void)
{
    fresh();
    HOLDS(answer[0] == SHPENDORAK_STARTED);
    request(7, 3, 2, put_100);
    offer(SHPENDORAK_RECORD_BYTES);
    HOLDS(answer[0] == SHPENDORAK_QUEUED && answer[1] == 7 && answer[2] == 3 && answer[3] == 1 && answer[4] == 0);
    HOLDS(answer[SHPENDORAK_NUMBERS - 1] == 0 && answer[SHPENDORAK_NUMBERS] == UINT64_MAX);
    look(7);
    HOLDS(answer[0] == SHPENDORAK_UNCONFIRMED);
    work(3);
    HOLDS(answer[0] == SHPENDORAK_STEPPED);
    confirm(7, 1);
    HOLDS(answer[0] == SHPENDORAK_WAITING && answer[2] == 1);
    look(7);
    HOLDS(answer[0] == SHPENDORAK_TO_DO && answer[1] == 1);
    work(3);
    HOLDS(answer[0] == SHPENDORAK_COMMITTED && answer[2] == 1);
    request(8, 3, 1, put_100);
    offer(SHPENDORAK_RECORD_BYTES);
    work(3);
    HOLDS(answer[0] == SHPENDORAK_EXECUTED);
    read_cell(3, 0);
    HOLDS(answer[0] == SHPENDORAK_VALUE && answer[1] == 100);
}

static void queries(void)
{
    fresh();
    book(7, 1, put_100);
    query(0);
    REFUSES(SHPENDORAK_EMPTY_MASK);
    for (uint64_t place = 1; place <= SHPENDORAK_QUERIES; place++) {
        query(1 << 3);
        HOLDS(answer[0] == SHPENDORAK_BEGUN && answer[1] == place);
    }
    query(1);
    REFUSES(SHPENDORAK_QUERIES_OPEN);
    HOLDS(site.queue[3 * SHPENDORAK_CLASS_PLACES] == SHPENDORAK_SLOTS);
    entry[SHPENDORAK_CELLS] = 7;
    entry[SHPENDORAK_CELLS - 1] = 7;
    work(3);
    HOLDS(answer[0] == SHPENDORAK_ENTRY && answer[1] == 1 && answer[2] == 3);
    HOLDS(entry[0] == 100 && entry[SHPENDORAK_CELLS - 1] == 0 && entry[SHPENDORAK_CELLS] == 7);
    site.begun = UINT32_MAX;
    query(1);
    REFUSES(SHPENDORAK_QUERIES_USED_UP);
}

static void codes(void)
{
    static const uint8_t add_3[8] = {SHPENDORAK_ADD, 0, 0, 0, 3}, move_2[8] = {SHPENDORAK_MOVE, 0, 1, 0, 2};
    static const uint8_t need_101[8] = {SHPENDORAK_NEED, 0, 0, 0, 101}, need_102[8] = {SHPENDORAK_NEED, 0, 0, 0, 102};
    fresh();
    book(1, 1, put_100);
    book(2, 2, add_3);
    book(3, 3, move_2);
    book(4, 4, need_101);
    HOLDS(answer[3] == 0);
    book(5, 5, need_102);
    HOLDS(answer[3] == 1);
    read_cell(3, 0);
    HOLDS(answer[1] == 101);
    read_cell(3, 1);
    HOLDS(answer[1] == 2);
}

static void refusals(void)
{
    fresh();
    request(7, 3, 1, put_100);
    run++;
    offer(SHPENDORAK_RECORD_BYTES);
    REFUSES(SHPENDORAK_WRONG_CELLS);
    run--;
    site.low = 1;
    offer(SHPENDORAK_RECORD_BYTES);
    REFUSES(SHPENDORAK_UNSOUND);
    site.low = 0;
    offer(SHPENDORAK_RECORD_BYTES - 1);
    REFUSES(SHPENDORAK_BAD_RECORD);
    offer(SHPENDORAK_RECORD_BYTES);
    offer(SHPENDORAK_RECORD_BYTES);
    REFUSES(SHPENDORAK_ID_QUEUED);
    confirm(7, 2);
    REFUSES(SHPENDORAK_WRONG_NUMBER);
    confirm(8, 1);
    REFUSES(SHPENDORAK_ID_NOT_QUEUED);
    confirm(7, 1);
    confirm(7, 2);
    REFUSES(SHPENDORAK_CONFIRMED_ALREADY);
    work(3);
    work(3);
    REFUSES(SHPENDORAK_NOTHING_TO_DO);
    offer(SHPENDORAK_RECORD_BYTES);
    REFUSES(SHPENDORAK_ID_KEPT);
    site.confirmations = site.commits = UINT32_MAX;
    for (uint32_t at = 0; at < SHPENDORAK_KEPT; at++)
        site.kept[at] = 1000 + at;
    confirm(8, UINT64_C(1) << 32);
    REFUSES(SHPENDORAK_NUMBERS_USED_UP);
}

static void texts(void)
{
    static const uint8_t longest[8] = {SHPENDORAK_MOVE, 62, 63, 0, 255, 255, 255, 255};
    uint8_t text[SHPENDORAK_LONGEST_TEXT];
    request(UINT32_MAX, SHPENDORAK_CLASSES - 1, SHPENDORAK_MOST_OPS, longest);
    asked();
    shpendorak_write_text(record, SHPENDORAK_RECORD_BYTES, text, sizeof text, answer);
    HOLDS(answer[0] == SHPENDORAK_WRITTEN && answer[1] == SHPENDORAK_LONGEST_TEXT);
    asked();
    shpendorak_read_text(text, sizeof text, record, SHPENDORAK_RECORD_BYTES, answer);
    HOLDS(answer[0] == SHPENDORAK_WRITTEN && answer[1] == SHPENDORAK_RECORD_BYTES);
    asked();
    shpendorak_write_text(record, SHPENDORAK_RECORD_BYTES, text, sizeof text - 1, answer);
    REFUSES(SHPENDORAK_SHORT_BUFFER);
    asked();
    shpendorak_read_text(text, sizeof text - 1, record, SHPENDORAK_RECORD_BYTES, answer);
    REFUSES(SHPENDORAK_BAD_TEXT);
    HOLDS(answer[2] == SHPENDORAK_MOST_OPS + 1);
}

static void sizes(void)
{
    uint32_t id;
    fresh();
    for (size_t cell = 0; cell <= SHPENDORAK_RUN_LENGTH; cell++)
        committed[cell] = working[cell] = 7;
    fresh();
    HOLDS(committed[SHPENDORAK_RUN_LENGTH - 1] == 0 && committed[SHPENDORAK_RUN_LENGTH] == 7);
    HOLDS(SHPENDORAK_RUN_LENGTH == SHPENDORAK_CLASSES * SHPENDORAK_CELLS);
    read_cell(SHPENDORAK_CLASSES - 1, SHPENDORAK_CELLS - 1);
    HOLDS(answer[0] == SHPENDORAK_VALUE);
    read_cell(SHPENDORAK_CLASSES, 0);
    REFUSES(SHPENDORAK_NO_SUCH_CLASS);
    read_cell(0, SHPENDORAK_CELLS);
    REFUSES(SHPENDORAK_NO_SUCH_CELL);
    request(1, 3, SHPENDORAK_MOST_OPS + 1, put_100);
    offer(SHPENDORAK_RECORD_BYTES);
    REFUSES(SHPENDORAK_BAD_RECORD);
    for (id = 1; id <= SHPENDORAK_SLOTS; id++) {
        request(id, 3, SHPENDORAK_MOST_OPS, put_100);
        offer(SHPENDORAK_RECORD_BYTES);
        HOLDS(answer[0] == SHPENDORAK_QUEUED && answer[3] == id);
    }
    request(id, 3, 1, put_100);
    offer(SHPENDORAK_RECORD_BYTES);
    REFUSES(SHPENDORAK_SITE_FULL);
    fresh();
    for (id = 1; id <= SHPENDORAK_KEPT; id++)
        book(id, id, put_100);
    request(1, 3, 1, put_100);
    offer(SHPENDORAK_RECORD_BYTES);
    REFUSES(SHPENDORAK_ID_KEPT);
    book(id, id, put_100);
    request(1, 3, 1, put_100);
    offer(SHPENDORAK_RECORD_BYTES);
    HOLDS(answer[0] == SHPENDORAK_QUEUED);
}

int main(void)
{
    answers();
    queries();
    codes();
    refusals();
    texts();
    sizes();
    return failed;
}

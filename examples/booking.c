/* Two bookings on one site, from the wire to their commits, and a report between them: class 3 is a
 * bay, cell 0 its free hours, cell 1 its booked hours. Prints a line for each call, as drive does,
 * and at the end the text of a booking. */
#include "shpendorak.h"

#include <inttypes.h>
#include <stdio.h>

enum { BAY = 3, FREE_HOURS = 0, BOOKED_HOURS = 1 };

/* A site with its cells, and the last answer. */
struct host {
    shpendorak_site site;
    uint32_t committed[SHPENDORAK_RUN_LENGTH];
    uint32_t working[SHPENDORAK_RUN_LENGTH];
    uint32_t entry[SHPENDORAK_CELLS];
    uint64_t answer[SHPENDORAK_NUMBERS];
    unsigned place;
};

/* The word of an answer and how many numbers follow it. */
static const struct {
    const char *word;
    int numbers;
} lines[] = {
    [SHPENDORAK_REFUSED] = {"refused", 1},         [SHPENDORAK_QUEUED] = {"queued", 4},
    [SHPENDORAK_STEPPED] = {"stepped", 2},         [SHPENDORAK_EXECUTED] = {"executed", 1},
    [SHPENDORAK_COMMITTED] = {"committed", 5},     [SHPENDORAK_WAITING] = {"waiting", 3},
    [SHPENDORAK_VALUE] = {"value", 1},             [SHPENDORAK_TO_DO] = {"to-do", 2},
    [SHPENDORAK_UNCONFIRMED] = {"unconfirmed", 1}, [SHPENDORAK_STARTED] = {"started", 0},
    [SHPENDORAK_WRITTEN] = {"written", 1},         [SHPENDORAK_BEGUN] = {"begun", 1},
    [SHPENDORAK_ENTRY] = {"entry", 2},
};

/* Prints the last answer: its place, a word, numbers. */
static void tell(struct host *host)
{
    const uint64_t *numbers = host->answer + 1;
    int what = (int)host->answer[0];

    printf("%u %s", ++host->place, lines[what].word);
    for (int i = 0; i < lines[what].numbers; i++)
        printf(" %" PRIu64, numbers[i]);
    putchar('\n');
}

/* Writes a number of 4 bytes, low byte first. */
static void write_number(uint8_t *bytes, uint32_t number)
{
    for (int i = 0; i < 4; i++)
        bytes[i] = (uint8_t)(number >> (8 * i));
}

/* Adds an operation to a record. */
static void add_op(uint8_t *booking, uint8_t code, uint8_t cell, uint8_t second, uint32_t amount)
{
    uint8_t *op = booking + 8 + 8 * booking[5]++;

    op[0] = code;
    op[1] = cell;
    op[2] = second;
    write_number(op + 4, amount);
}

/* Starts with a fresh site. */
static void fresh(struct host *host)
{
    host->site = shpendorak_fresh(host->committed, SHPENDORAK_RUN_LENGTH, host->working,
                                  SHPENDORAK_RUN_LENGTH, host->answer);
    tell(host);
}

/* Offers a record. */
static void offer(struct host *host, const uint8_t *booking)
{
    host->site = shpendorak_offer(host->site, host->committed, SHPENDORAK_RUN_LENGTH, host->working,
                                  SHPENDORAK_RUN_LENGTH, booking, SHPENDORAK_RECORD_BYTES,
                                  host->answer);
    tell(host);
}

/* Confirms an id under its number. */
static void confirm(struct host *host, uint64_t id, uint64_t number)
{
    host->site = shpendorak_confirm(host->site, host->committed, SHPENDORAK_RUN_LENGTH,
                                    host->working, SHPENDORAK_RUN_LENGTH, id, number, host->answer);
    tell(host);
}

/* Works once for the bay; tells the hours of a report's entry that was read. */
static void work(struct host *host)
{
    host->site = shpendorak_work(host->site, host->committed, SHPENDORAK_RUN_LENGTH, host->working,
                                 SHPENDORAK_RUN_LENGTH, BAY, host->entry, host->answer);
    tell(host);
    if (host->answer[0] == SHPENDORAK_ENTRY)
        printf("report: %" PRIu32 " free, %" PRIu32 " booked\n", host->entry[FREE_HOURS],
               host->entry[BOOKED_HOURS]);
}

/* Begins a report over the bay. */
static void report(struct host *host)
{
    host->site = shpendorak_query(host->site, host->committed, SHPENDORAK_RUN_LENGTH, host->working,
                                  SHPENDORAK_RUN_LENGTH, 1 << BAY, host->answer);
    tell(host);
}

/* Reads a committed cell of the bay. */
static void read_cell(struct host *host, uint64_t cell)
{
    host->site = shpendorak_read(host->site, host->committed, SHPENDORAK_RUN_LENGTH, host->working,
                                 SHPENDORAK_RUN_LENGTH, BAY, cell, host->answer);
    tell(host);
}

/* Looks how far an id has come. */
static void look(struct host *host, uint64_t id)
{
    host->site = shpendorak_look(host->site, host->committed, SHPENDORAK_RUN_LENGTH, host->working,
                                 SHPENDORAK_RUN_LENGTH, id, host->answer);
    tell(host);
}

/* Writes the text of a record and prints it. */
static void show(struct host *host, const uint8_t *booking)
{
    uint8_t text[SHPENDORAK_LONGEST_TEXT];

    shpendorak_write_text(booking, SHPENDORAK_RECORD_BYTES, text, sizeof text, host->answer);
    tell(host);
    if (host->answer[0] == SHPENDORAK_WRITTEN)
        fwrite(text, 1, (size_t)host->answer[1], stdout);
}

int main(void)
{
    static struct host host;
    uint8_t stock[SHPENDORAK_RECORD_BYTES] = {7, 0, 0, 0, BAY};
    uint8_t film[SHPENDORAK_RECORD_BYTES] = {9, 0, 0, 0, BAY};

    add_op(stock, SHPENDORAK_PUT, FREE_HOURS, 0, 100);
    add_op(film, SHPENDORAK_NEED, FREE_HOURS, 0, 2);
    add_op(film, SHPENDORAK_MOVE, FREE_HOURS, BOOKED_HOURS, 2);

    fresh(&host);
    offer(&host, film);    /* the film comes off the wire first, */
    offer(&host, stock);
    work(&host);           /* and its work begins: there are no hours yet, it declines */
    look(&host, 9);
    confirm(&host, 7, 1);  /* but the stock has number 1: the film is put back */
    look(&host, 7);
    look(&host, 9);        /* and says so: put back once */
    work(&host);           /* the stock commits */
    report(&host);         /* a report: after number 1, before what is confirmed from now on */
    confirm(&host, 9, 3);  /* 2 is next: refused 7 */
    confirm(&host, 9, 2);  /* W is 3: the report's entry stands before the film */
    work(&host);           /* the report reads its entry */
    work(&host);
    work(&host);           /* the film commits */
    read_cell(&host, FREE_HOURS);
    read_cell(&host, BOOKED_HOURS);
    work(&host);           /* nothing to do: refused 11 */
    host.site.low ^= 1;    /* a bit of the map of used slots is damaged: refused 2 */
    read_cell(&host, FREE_HOURS);
    show(&host, film);     /* a text needs no site */
    return fflush(stdout) == 0 ? 0 : 1;
}

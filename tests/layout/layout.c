/* The layout that the archive was built with: size and place of every field, at compile time. */
#include "shpendorak.h"

/* A field starts at a byte of its struct and has so many bytes. */
#define STANDS(whole, field, at, bytes)                                            \
    _Static_assert(offsetof(whole, field) == (at), #whole " " #field " starts");   \
    _Static_assert(sizeof(((whole *)0)->field) == (bytes), #whole " " #field " is as large")

STANDS(shpendorak_op, code, 0, 1);
STANDS(shpendorak_op, cell, 1, 1);
STANDS(shpendorak_op, second, 2, 1);
STANDS(shpendorak_op, amount, 4, 4);
_Static_assert(sizeof(shpendorak_op) == 8, "an operation");

STANDS(shpendorak_slot, id, 0, 4);
STANDS(shpendorak_slot, class_number, 4, 1);
STANDS(shpendorak_slot, count, 5, 1);
STANDS(shpendorak_slot, ops, 8, 56);
STANDS(shpendorak_slot, number, 64, 4);
STANDS(shpendorak_slot, done, 68, 1);
STANDS(shpendorak_slot, mark, 69, 1);
STANDS(shpendorak_slot, backs, 72, 8);
_Static_assert(sizeof(shpendorak_slot) == 80, "a slot");

STANDS(shpendorak_open_query, classes, 0, 2);
STANDS(shpendorak_open_query, begun, 4, 4);
_Static_assert(sizeof(shpendorak_open_query) == 8, "a query");

STANDS(shpendorak_site, slots, 0, 10240);
STANDS(shpendorak_site, queue, 10240, 2176);
STANDS(shpendorak_site, lens, 12416, 16);
STANDS(shpendorak_site, low, 12432, 8);
STANDS(shpendorak_site, high, 12440, 8);
STANDS(shpendorak_site, confirmations, 12448, 4);
STANDS(shpendorak_site, commits, 12452, 4);
STANDS(shpendorak_site, kept, 12456, 1024);
STANDS(shpendorak_site, queries, 13480, 64);
STANDS(shpendorak_site, begun, 13544, 4);
STANDS(shpendorak_site, sums, 13548, 32);
_Static_assert(sizeof(shpendorak_site) == 13584, "a site");
_Static_assert(SHPENDORAK_CLASS_PLACES == SHPENDORAK_SLOTS + SHPENDORAK_QUERIES, "a queue has room for every slot and query");
_Static_assert(SHPENDORAK_PLACES == SHPENDORAK_CLASSES * SHPENDORAK_CLASS_PLACES, "so has each class");

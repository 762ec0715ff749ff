/* The operations of the text form on three books at once: the library's words, the plain book's, and the list machine
 * for as long as no `write` has changed the words. Dates have no book: for them the plain calendar stands beside the plain
 * book, and the counted one beside the list machine. The operations are rows of the table in script_operations.c. */
#ifndef BILZHAAN_TESTS_SCRIPT_OPERATIONS_H
#define BILZHAAN_TESTS_SCRIPT_OPERATIONS_H

#include "list_machine.h"
#include "script.h"

enum { LIBRARY, PLAIN_BOOK, LIST_MACHINE, BOOKS };
/* Answers of these levels hold; of the first those of dates alone, which k6_dates.txt has. */
enum { FIRST_LEVEL = 6, LEVEL = 7, GUARD = 8, CANARY = 0x5A5A5A5A, ANSWER_ROOM = 1 << 14 };

/* A list's words, lent to the library and to the plain book, with GUARD canaries before and after each. */
struct books {
    int32_t *library, *plain;
    int32_t *listed; /* room for what the list machine's calls make of the words */
    size_t lent;
    struct list_machine machine;
    bool is_lent, machine_follows;
};

struct answers {
    struct {
        char text[ANSWER_ROOM];
        size_t length;
        bool is_given; /* an operation may leave a book out */
    } by[BOOKS];
    int64_t number; /* that the library drew, or -1 */
};

/* Runs a line and prints each book's answer. Null, or what is wrong with the line. */
const char *run_operation(struct books *b, const struct line *l, struct answers *a);

/* Ends a list: the words and the machine's list are freed. */
void give_back(struct books *b);

#endif

/* Runs a script, the text form of lists, on the library, the plain book and the list machine, and compares every answer
 * and every word. What the operations do is in script_operations.h. */
#ifndef BILZHAAN_TESTS_SCRIPT_RUN_H
#define BILZHAAN_TESTS_SCRIPT_RUN_H

#include <stdio.h>

enum { NUMBERS = 22 }; /* answers' numbers are below this */

struct run {
    const char *file; /* its name in messages */
    int shown;        /* failures that are still to be printed */
    FILE *answered;   /* where each line goes with its answer put in; null where answers are compared */

    long lists;        /* lines `# id: sentence` */
    long operations;
    long lines_failed; /* lines with a failure of any kind */
    long passed, failed;
    long drawn[NUMBERS]; /* answers by number, of the operations that draw one */
};

/* Runs the lines of `text`, which it takes apart. Counts are added to `r`. */
void run_script(struct run *r, char *text);

#endif

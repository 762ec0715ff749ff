/* Runs the scripts of tests/vectors, and tests the reader on copies of them with wrong answers and on wrong lines.
 * Arguments: the files; after --every-number they are to draw each number some times. `scripts_test --answers` reads a script
 * without answers and prints it with them. */
#include "script.h"
#include "script_run.h"

#include <inttypes.h>
#include <stdbool.h>
#include <stdlib.h>
#include <string.h>

enum { FAILURES_SHOWN = 20, TIMES_DRAWN_AT_LEAST = 3 };

static long passed, failed;

static void check(bool ok, const char *file, const char *what)
{
    if (ok) {
        passed++;
    } else {
        failed++;
        printf("%s: not so: %s\n", file, what);
    }
}

static char *read_whole(FILE *file, const char *name)
{
    size_t room = 1 << 16, count = 0, got;
    char *text = malloc(room);
    while (text && (got = fread(text + count, 1, room - count - 1, file)) > 0)
        if ((count += got) == room - 1)
            text = realloc(text, room *= 2);
    if (!text || ferror(file)) {
        fprintf(stderr, "%s can't be read\n", name);
        exit(2);
    }
    text[count] = '\0';
    if (strlen(text) != count) {
        fprintf(stderr, "%s isn't text\n", name);
        exit(2);
    }
    return text;
}

static char *copy_of(const char *text)
{
    char *copy = malloc(strlen(text) + 1);
    if (!copy) {
        fprintf(stderr, "no memory for a copy\n");
        exit(2);
    }
    return strcpy(copy, text);
}

/* ---- the reader itself ---- */

/* Makes one digit of each answer another, a different place from line to line. How many answers that were. */
static long spoil_answers(char *text)
{
    long spoilt = 0, line_number = 0;
    for (char *line = text, *next; *line; line = next) {
        char *end = strchr(line, '\n');
        next = end ? end + 1 : line + strlen(line);
        char *answer = strstr(line, " = ");
        line_number++;
        if (line[0] == '#' || !answer || answer >= next)
            continue;
        long digits = 0;
        for (char *c = answer; c < next; c++)
            digits += *c >= '0' && *c <= '9';
        long chosen = digits ? line_number * 7919 % digits : -1;
        for (char *c = answer; c < next; c++)
            if (*c >= '0' && *c <= '9' && chosen-- == 0) {
                *c = (char)(*c == '9' ? '0' : *c + 1);
                spoilt++;
            }
    }
    return spoilt;
}

static void test_spoilt(const char *file, const char *text)
{
    char *copy = copy_of(text);
    long spoilt = spoil_answers(copy);
    struct run r = {.file = file};
    run_script(&r, copy);
    check(spoilt > 0 && r.lines_failed == spoilt, file, "each line fails where a digit of its answer is another");
    free(copy);
}

/* Lines that must fail, each after an opening that is right. */
static void test_lines(void)
{
    static const char opening[] = "open 7 1 1 -5 5 5 5 5 5 0 = 0\n";
    static const char *const wrong[] = {
        "opens 7 1 1 -5 5 5 5 5 5 0 = 0",
        "explain 00 = 2 0 0",
        "words",
        "words =0",
        "words = ",
        "words  = 1",
        " words = 1",
        "words 1 = 1",
        "open 8 1 1 -5 5 5 5 5 5 0 = 0",
        "open 5 1 1 -5 5 5 5 5 5 0 = 0",
        "open 7 1 1 -5 5 5 5 5 5 = 0",
        "open 7 1 1 -5 5 5 5 5 5 +1 = 0",
        "open 7 1 1 -5 5 5 5 5 5 00 = 0",
        "open 7 1 1 -5 5 5 5 5 2147483648 0 = 20",
        "open 7 1 1 -5 5 5 5 5 5 -16225 = 20",
        "open 7 0 1 -5 5 5 5 5 5 -1 = 20",
        "open 7 1 1 -5 5 5 5 5 5 0 = 20",
        "open 7 0 1 -5 5 5 5 5 5 0 = 0",
        "write 0 =",
        "write 16224 0 =",
        "write -1 0 =",
        "write 0 0 = 0",
        "call 5 = 2 0 0 0 0 0 0 0 0 0 0 0 0 0 0 0 0 0 0 0 0 0 0 0 0 0",
        "call zz = 2 0 0 0 0 0 0 0 0 0 0 0 0 0 0 0 0 0 0 0 0 0 0 0 0 0",
        "call - = 2 0 0 0 0 0 0 0 0 0 0 0 0 0 0 0 0 0 0 0 0 0 0 0 0",
        "call - = 2 0 0 0 0 0 0 0 0 0 0 0 0 0 0 0 0 0 0 0 0 0 0 0 0 0 0",
        "test - 1 = 2",
        "test - 1 5 = 0",
        "test - 0 5 = 2",
        "test - 1 5 = 2\r",
        "next 119 = 4",
        "next 119 4 0 = 4",
        "next 119 4 = 340",
        "next 120 4 = 4",
        "next 119 336 = 336",
        "next 119 -1 = 335",
        "next -1 4 = 4",
        "next 1000000001 4 = 33333556",
        "date 2024 1 1 = 0 0 0",
        "date 2024 1 1 1 1 = 0 0 0",
        "date 2024 1 1 1 = 0 0",
        "date 2024 1 1 1 = 0 0 1",
        "date 2024 1 1 1 = 0 1 0",
        "date 2024 1 1 01 = 0 0 0",
        "date 2025 2 29 1 = 0 20400 5",
        "date 2024 1 1 2147483648 = 21 0 0",
        "period = 0 2024 1 1 1 0",
        "period 0 0 = 0 2024 1 1 1 0",
        "period 0 = 0 2024 1 1 1",
        "period 0 = 0 2024 1 1 0 0",
        "period 1332432 = 0 2100 1 1 1 4",
        "period -0 = 0 2024 1 1 1 0",
        "",
    };
    static const char *const right[] = {
        "call - = 2 0 0 0 0 0 0 0 0 0 0 0 0 0 0 0 0 0 0 0 0 0 0 0 0 0",
        "test - 1 5 = 2",
        "test - 0 5 = 20",
        "next 119 4 = 4",
        "next 120 4 = 340",
        "date 2024 1 1 1 = 0 0 0",
        "date 2025 2 29 1 = 21 0 0",
        "period 47 = 0 2024 1 1 48 0",
        "period -1 = 21 0 0 0 0 0",
        "write 0 1 =",
        "open 6 0 1 -5 5 5 5 5 5 0 = 20",
        "open 7 0 1 -5 5 5 5 5 5 0 = 20",
        "open 7 1 1 -5 5 5 5 5 5 -16224 = 20",
        "# a comment",
    };
    char text[512];
    for (size_t i = 0; i < sizeof wrong / sizeof wrong[0]; i++) {
        struct run r = {.file = "a wrong line"};
        snprintf(text, sizeof text, "%s%s\n", opening, wrong[i]);
        run_script(&r, text);
        check(r.lines_failed == 1 && r.failed > 0, wrong[i], "a wrong line fails");
    }
    for (size_t i = 0; i < sizeof right / sizeof right[0]; i++) {
        struct run r = {.file = "a right line"};
        snprintf(text, sizeof text, "%s%s\n", opening, right[i]);
        run_script(&r, text);
        check(r.lines_failed == 0 && r.failed == 0 && r.passed > 0, right[i], "a right line passes");
    }
    struct run r = {.file = "no opening"};
    run_script(&r, strcpy(text, "words = 0\n"));
    check(r.lines_failed == 1, "words = 0", "a list without an opening fails");
}

static void test_checksum(void)
{
    static const uint8_t digits[9] = {'1', '2', '3', '4', '5', '6', '7', '8', '9'};
    static const int32_t words[2] = {0x31323334, 0x35363738};
    const uint32_t known = UINT32_C(3421780262);
    check(checksum_of_bytes(CHECKSUM_START, digits, 9) == known, "checksum", "of the nine digits, 3421780262");
    check(checksum_of_bytes(checksum(CHECKSUM_START, words, 2), digits + 8, 1) == known, "checksum",
          "words are taken most significant byte first");
}

/* ---- the files ---- */

static int answer_questions(void)
{
    struct run r = {.file = "standard input", .shown = FAILURES_SHOWN, .answered = stdout};
    char *text = read_whole(stdin, "standard input");
    run_script(&r, text);
    free(text);
    return r.failed != 0;
}

static const char *name_of(const char *path)
{
    const char *slash = strrchr(path, '/');
    return slash ? slash + 1 : path;
}

int main(int argc, char **argv)
{
    if (argc < 2) {
        fprintf(stderr, "usage: scripts_test [--every-number] FILE..., or scripts_test --answers <QUESTIONS\n");
        return 2;
    }
    if (strcmp(argv[1], "--answers") == 0)
        return answer_questions();
    bool every_number = strcmp(argv[1], "--every-number") == 0;
    struct run all = {.shown = FAILURES_SHOWN};
    for (int i = every_number ? 2 : 1; i < argc; i++) {
        FILE *file = fopen(argv[i], "rb");
        if (!file) {
            perror(argv[i]);
            return 2;
        }
        char *text = read_whole(file, argv[i]);
        fclose(file);
        test_spoilt(name_of(argv[i]), text);
        all.file = name_of(argv[i]);
        run_script(&all, text);
        free(text);
    }
    test_lines();
    test_checksum();
    for (int i = 0; every_number && i < NUMBERS; i++) {
        char what[64];
        snprintf(what, sizeof what, "number %d is drawn %d times or more", i, TIMES_DRAWN_AT_LEAST);
        check(all.drawn[i] >= TIMES_DRAWN_AT_LEAST, "the scripts", what);
    }
    printf("%ld lists, %ld operations; answers by number:", all.lists, all.operations);
    for (int i = 0; i < NUMBERS; i++)
        printf(" %d: %ld%s", i, all.drawn[i], i + 1 < NUMBERS ? "," : "");
    passed += all.passed;
    failed += all.failed;
    printf("\n%ld passed, %ld failed\n", passed, failed);
    return failed != 0;
}

/* Replays the lists of tests/vectors on the library, the plain book and the list machine; every answer is compared.
 * Argument: the folder of the vectors. tests/vectors/README.md says how they are written. */
#include "bilzhaan.h"
#include "list_machine.h"
#include "../../bench/plain_book.h"

#include <inttypes.h>
#include <stdio.h>
#include <stdlib.h>
#include <string.h>

static long passed, failed;

struct bytes {
    uint8_t *at;
    size_t count;
};

static struct bytes read_whole(const char *folder, const char *name, const char *end)
{
    char path[1024];
    snprintf(path, sizeof path, "%s/%s%s", folder, name, end);
    FILE *file = fopen(path, "rb");
    if (!file) {
        perror(path);
        exit(2);
    }
    struct bytes b = {NULL, 0};
    size_t room = 1 << 16, got;
    b.at = malloc(room);
    while (b.at && (got = fread(b.at + b.count, 1, room - b.count, file)) > 0)
        if ((b.count += got) == room)
            b.at = realloc(b.at, room *= 2);
    if (!b.at) {
        fprintf(stderr, "no memory for %s\n", path);
        exit(2);
    }
    fclose(file);
    return b;
}

static int32_t word_of(const uint8_t *p)
{
    return (int32_t)((uint32_t)p[0] << 24 | (uint32_t)p[1] << 16 | (uint32_t)p[2] << 8 | p[3]);
}

/* One list's book on each of the three. */
static int32_t *library, *plain;
static size_t words;
static struct list_machine machine;

static void open_all(int32_t facilities, int32_t services, const int32_t limits[6])
{
    words = BILZHAAN_BOOK_WORDS(facilities, services);
    library = malloc(words * sizeof library[0]);
    plain = malloc(words * sizeof plain[0]);
    if (!library || !plain || bilzhaan_open(library, words, facilities, services, limits) != 0
        || plain_open(plain, words, facilities, services, limits) != 0) {
        fprintf(stderr, "opening failed\n");
        exit(2);
    }
    list_machine_open(&machine, facilities, services, limits);
}

static void close_all(void)
{
    free(library);
    free(plain);
    list_machine_close(&machine);
}

static int print_answer(char *line, size_t room, const struct bilzhaan_answer *a, int shown)
{
    int n = snprintf(line, room, "%" PRIu32, a->number);
    for (int i = 0; i < shown; i++)
        n += snprintf(line + n, room - (size_t)n, " %" PRId32, a->words[i]);
    return n + snprintf(line + n, room - (size_t)n, " %" PRId64 "\n", a->sum);
}

/* Compares the three answers with the next line of `out`, of which `shown` words are printed. */
static void compare(const char *name, long call, const uint8_t *record, size_t length, struct bytes *out, int shown)
{
    const char *who[3] = {"library", "plain book", "list machine"};
    struct bilzhaan_answer answers[3] = {bilzhaan_call(library, words, record, length),
                                         plain_call(plain, words, record, length),
                                         list_machine_call(&machine, record, length)};
    const uint8_t *end = out->count ? memchr(out->at, '\n', out->count) : NULL;
    size_t count = end ? (size_t)(end - out->at) + 1 : 0;
    for (int i = 0; i < 3; i++) {
        char line[512];
        int n = print_answer(line, sizeof line, &answers[i], shown);
        if ((size_t)n == count && memcmp(line, out->at, count) == 0) {
            passed++;
        } else if (failed++ < 20) {
            printf("%s, record %ld, %s: %sexpected: %.*s", name, call, who[i], line, (int)count, (const char *)out->at);
        }
    }
    out->at += count;
    out->count -= count;
}

static void check_end(const char *name, const struct bytes *out)
{
    if (out->count == 0) {
        passed++;
    } else {
        failed++;
        printf("%s: answers left over\n", name);
    }
}

static void replay_lists(const char *folder, const char *name)
{
    struct bytes in = read_whole(folder, name, ".in"), out = read_whole(folder, name, ".out");
    uint8_t *in_start = in.at, *out_start = out.at, *end = in.at + in.count;
    long call = 0;
    while (in.at < end) {
        int32_t head[9];
        for (int i = 0; i < 9; i++, in.at += 4)
            head[i] = word_of(in.at);
        open_all(head[0], head[1], head + 2);
        for (int32_t i = 0; i < head[8]; i++) {
            size_t length = (size_t)word_of(in.at);
            compare(name, call++, in.at + 4, length, &out, BILZHAAN_ANSWER_WORDS);
            in.at += 4 + length;
        }
        close_all();
    }
    check_end(name, &out);
    free(in_start);
    free(out_start);
}

/* "The program reads records from standard input into a book of 16,224 words .., F 1, S 1, energy −4,500.00 to
 * 4,500.00, others to 4,500.00. Each record, a short last one too, prints number, word 0, sum" */
static void replay_program(const char *folder, const char *name)
{
    static const int32_t limits[6] = {-450000, 450000, 450000, 450000, 450000, 450000};
    struct bytes in = read_whole(folder, name, ".in"), out = read_whole(folder, name, ".out");
    uint8_t *out_start = out.at;
    open_all(1, 1, limits);
    for (size_t at = 0; at < in.count; at += BILZHAAN_RECORD_BYTES) {
        size_t left = in.count - at;
        size_t length = left < BILZHAAN_RECORD_BYTES ? left : BILZHAAN_RECORD_BYTES;
        compare(name, (long)(at / BILZHAAN_RECORD_BYTES), in.at + at, length, &out, 1);
    }
    close_all();
    check_end(name, &out);
    free(in.at);
    free(out_start);
}

int main(int argc, char **argv)
{
    if (argc != 2) {
        fprintf(stderr, "usage: vectors_test FOLDER\n");
        return 2;
    }
    static const char *const lists[] = {"one_service", "five_services", "every_byte", "k1_calls",
                                        "k2_calls", "k3_calls", "k3_every_byte", "k5_calls", "k5_every_byte",
                                        "k7_calls"};
    static const char *const programs[] = {"program_31", "program_32", "program_33", "program_34", "program_35",
                                           "program_36", "k1_program", "k2_program", "k3_program", "k5_program",
                                           "k7_program"};
    for (size_t i = 0; i < sizeof lists / sizeof lists[0]; i++)
        replay_lists(argv[1], lists[i]);
    for (size_t i = 0; i < sizeof programs / sizeof programs[0]; i++)
        replay_program(argv[1], programs[i]);
    printf("%ld passed, %ld failed\n", passed, failed);
    return failed != 0;
}

/* A script line by line: each answer is compared with the line's, and the books' words with each other. */
#include "script_run.h"

#include "listed_words.h"
#include "script_operations.h"

#include <string.h>

/* Books of more words are compared at `words` lines alone, by checksum. */
enum { WORDS_COMPARED_EACH_LINE = 1100000, WORDS_LISTED_EACH_LINE = 200000 };

static const char *const who[BOOKS] = {"the library", "the plain book", "the list machine"};

struct place {
    struct run *run;
    long line;
    const char *list; /* its id, "" before the first */
    bool is_failed;
};

static void check(struct place *p, bool ok, const char *what, const char *got, const char *expected)
{
    if (ok) {
        p->run->passed++;
        return;
    }
    p->run->failed++;
    p->is_failed = true;
    if (p->run->shown > 0) {
        p->run->shown--;
        FILE *out = p->run->answered ? stderr : stdout;
        fprintf(out, "%s:%ld: %s%s%s\n", p->run->file, p->line, p->list, p->list[0] ? ": " : "", what);
        if (got)
            fprintf(out, "  answered %s\n  expected %s\n", got, expected);
    }
}

static bool same_words(const int32_t *one, const int32_t *other, size_t lent)
{
    return memcmp(one - GUARD, other - GUARD, (lent + 2 * GUARD) * sizeof one[0]) == 0;
}

static bool guards_stand(const int32_t *words, size_t lent)
{
    for (size_t i = 1; i <= GUARD; i++)
        if (*(words - i) != CANARY || words[lent + i - 1] != CANARY)
            return false;
    return true;
}

static void compare(struct place *p, struct books *b, const struct answers *a, const char *expected)
{
    for (int i = 0; i < BOOKS; i++)
        if (a->by[i].is_given)
            check(p, strcmp(a->by[i].text, expected) == 0, who[i], a->by[i].text, expected);
    check(p, guards_stand(b->library, b->lent), "the library wrote outside the words", NULL, NULL);
    if (b->lent <= WORDS_COMPARED_EACH_LINE)
        check(p, same_words(b->library, b->plain, b->lent), "the two books' words differ", NULL, NULL);
    if (b->machine_follows && b->lent <= WORDS_LISTED_EACH_LINE) {
        listed_words(&b->machine, b->listed);
        check(p, same_words(b->library, b->listed, b->lent), "the words aren't the accepted calls'", NULL, NULL);
    }
}

static void print_answered(FILE *out, const struct line *l, const char *answer)
{
    fprintf(out, "%s", l->name);
    for (size_t i = 0; i < l->count; i++)
        fprintf(out, " %s", l->arguments[i]);
    fprintf(out, " =%s%s\n", answer[0] ? " " : "", answer);
}

static void one_line(struct place *p, struct books *b, char *text)
{
    static struct answers a;
    struct line l;
    for (int i = 0; i < BOOKS; i++) {
        a.by[i].text[0] = '\0';
        a.by[i].length = 0;
        a.by[i].is_given = false;
    }
    a.number = -1;
    p->run->operations++;
    const char *wrong = take_apart(text, &l) ? run_operation(b, &l, &a) : "not of the form `name arguments = answer`";
    if (wrong) {
        check(p, false, wrong, NULL, NULL);
    } else {
        compare(p, b, &a, p->run->answered ? a.by[LIBRARY].text : l.answer);
        if (a.number >= NUMBERS)
            check(p, false, "a number that no answer of this level has", NULL, NULL);
        else if (a.number >= 0)
            p->run->drawn[a.number]++;
        if (p->run->answered)
            print_answered(p->run->answered, &l, a.by[LIBRARY].text);
    }
    put_away(&l);
}

/* `# id: sentence` starts a list; other lines that start with # are comments. The id, or null. */
static char *id_of(char *comment)
{
    char *colon = strstr(comment, ": ");
    if (strncmp(comment, "# ", 2) != 0 || !colon || memchr(comment + 2, ' ', (size_t)(colon - comment - 2)))
        return NULL;
    *colon = '\0';
    return comment + 2;
}

void run_script(struct run *r, char *text)
{
    struct place p = {r, 0, "", false};
    struct books b;
    memset(&b, 0, sizeof b);
    for (char *line = text, *next; *line; line = next) {
        char *end = strchr(line, '\n');
        next = end ? end + 1 : line + strlen(line);
        if (end)
            *end = '\0';
        p.line++;
        p.is_failed = false;
        if (line[0] == '#') {
            if (r->answered)
                fprintf(r->answered, "%s\n", line);
            char *id = id_of(line);
            if (id) {
                p.list = id;
                r->lists++;
            }
        } else {
            one_line(&p, &b, line);
        }
        r->lines_failed += p.is_failed;
    }
    give_back(&b);
}

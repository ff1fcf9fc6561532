/*
 * Times, on the image in the file that is named and a book (token bytes on standard input) in 1,000 slots, the edits that make its first, its middle
 * and its last host another one and that remove the middle one's rule; parse of the new sentences of the middle host and of the rule; and edits that
 * are refused: for tables of no length (4, without a work area and with one), an area of a wrong length (5), a work area one byte short (6), a
 * removed run that is too long (8), a new sentence that goes wrong at its first token and one that goes wrong at its end (9). Each edit finds the
 * tree as it was parsed, by a copy that its time includes. Last that copy, and one of tables, tree area and work area together. Prints
 * `NAME NANOS NAME NANOS ..`.
 */
#define _POSIX_C_SOURCE 199309L
#include "kindlesap.h"
#include "timing.h"

#include <stdio.h>
#include <string.h>

enum {
    TREE = KINDLESAP_TREE_SIZE(KINDLESAP_MAX_SLOTS),
    WORK = KINDLESAP_WORK_SIZE(KINDLESAP_MAX_SLOTS),
    ALL = KINDLESAP_TABLES_SIZE + TREE + WORK,
    TOKEN = KINDLESAP_TOKEN_SIZE,
    BOOK = 1 << 13,
};

enum { ALLOW = 1, HOST = 2, SEMICOLON = 5 };

/* A removed run and at most one new token. */
struct edit {
    size_t place, removed, inserted;
    uint8_t token[TOKEN];
};

/* A sentence of so many tokens. */
struct sentence {
    size_t count;
    uint8_t bytes[BOOK + TOKEN];
};

static uint8_t image[4096], tables[KINDLESAP_TABLES_SIZE], parsed[TREE], tree[TREE], work[WORK], reply[KINDLESAP_REPLY_SIZE], from[ALL], to[ALL];
static size_t image_len;
static struct sentence book, of_middle, of_rule;
static struct edit first, middle, last, rule, too_long, no_start, no_end;
static int wrong;

static void parse_into(uint8_t *area, const struct sentence *s)
{
    kindlesap_parse(image, image_len, tables, sizeof tables, s->bytes, TOKEN * s->count, area, TREE, work, WORK, reply, sizeof reply);
    wrong |= reply[0] != KINDLESAP_ACCEPTED;
}

static void edit_in(const struct edit *e, size_t tables_len, size_t tree_len, size_t work_len, uint8_t expected)
{
    memcpy(tree, parsed, TREE);
    kindlesap_edit(image, image_len, tables, tables_len, tree, tree_len, (uint32_t)e->place, (uint32_t)e->removed, e->token, TOKEN * e->inserted,
                   work, work_len, reply, sizeof reply);
    wrong |= reply[0] != expected;
}

static void edit_to(const struct edit *e, uint8_t expected)
{
    edit_in(e, sizeof tables, TREE, WORK, expected);
}

static void copy(size_t n)
{
    memcpy(to, from, n);
    __asm__ volatile("" : : "r"(to) : "memory");
}

static void first_host(void)
{
    edit_to(&first, KINDLESAP_ACCEPTED);
}

static void middle_host(void)
{
    edit_to(&middle, KINDLESAP_ACCEPTED);
}

static void last_host(void)
{
    edit_to(&last, KINDLESAP_ACCEPTED);
}

static void remove_rule(void)
{
    edit_to(&rule, KINDLESAP_ACCEPTED);
}

static void parse_host(void)
{
    parse_into(tree, &of_middle);
}

static void parse_rule(void)
{
    parse_into(tree, &of_rule);
}

static void edit_4(void)
{
    edit_in(&middle, 0, TREE, 0, KINDLESAP_WRONG_TABLES);
}

static void edit_4_work(void)
{
    edit_in(&middle, 0, TREE, WORK, KINDLESAP_WRONG_TABLES);
}

static void edit_5(void)
{
    edit_in(&middle, sizeof tables, TREE - 1, WORK, KINDLESAP_WRONG_TREE);
}

static void edit_6(void)
{
    edit_in(&middle, sizeof tables, TREE, WORK - 1, KINDLESAP_SHORT_WORK);
}

static void edit_8(void)
{
    edit_to(&too_long, KINDLESAP_BEYOND_TOKENS);
}

static void edit_9_first(void)
{
    edit_to(&no_start, KINDLESAP_SYNTAX);
}

static void edit_9_last(void)
{
    edit_to(&no_end, KINDLESAP_SYNTAX);
}

static void copy_tree(void)
{
    copy(TREE);
}

static void copy_all(void)
{
    copy(ALL);
}

static uint8_t kind(size_t place)
{
    return book.bytes[TOKEN * place];
}

/* Another host in the place of the one that stands there. */
static struct edit other_host(size_t place)
{
    struct edit e = {place, 1, 1, {HOST}};
    for (size_t i = 1; i < TOKEN; i++)
        e.token[i] = (uint8_t)~book.bytes[TOKEN * place + i];
    return e;
}

/* The rule of a token that stands there is removed. */
static struct edit without_rule(size_t place)
{
    size_t start = place, end = place;
    while (kind(start) != ALLOW)
        start--;
    while (kind(end) != SEMICOLON)
        end++;
    return (struct edit){start, end + 1 - start, 0, {0}};
}

/* The sentence that an edit of the book leaves. */
static struct sentence after(const struct edit *e)
{
    struct sentence s = {book.count - e->removed + e->inserted, {0}};
    uint8_t *behind = s.bytes + TOKEN * (e->place + e->inserted);
    memcpy(s.bytes, book.bytes, TOKEN * e->place);
    memcpy(s.bytes + TOKEN * e->place, e->token, TOKEN * e->inserted);
    memcpy(behind, book.bytes + TOKEN * (e->place + e->removed), TOKEN * (book.count - e->place - e->removed));
    return s;
}

/* The edits, of a book that begins and ends with a rule. */
static void choose_edits(void)
{
    size_t hosts[BOOK / TOKEN], n = 0;
    for (size_t place = 0; place < book.count; place++)
        if (kind(place) == HOST)
            hosts[n++] = place;
    first = other_host(hosts[0]);
    middle = other_host(hosts[n / 2]);
    last = other_host(hosts[n - 1]);
    rule = without_rule(hosts[n / 2]);
    of_middle = after(&middle);
    of_rule = after(&rule);
    too_long = (struct edit){book.count, 1, 0, {0}};
    no_start = (struct edit){0, 1, 0, {0}};
    no_end = (struct edit){book.count - 1, 1, 0, {0}};
}

/* Whether the tree has the tokens of a sentence. */
static int reads(const struct sentence *s)
{
    static uint8_t output[BOOK];
    kindlesap_read_back(image, image_len, tree, TREE, output, sizeof output, reply, sizeof reply);
    return reply[0] == KINDLESAP_ACCEPTED && memcmp(output, s->bytes, TOKEN * s->count) == 0;
}

/* What is timed. */
static const struct {
    const char *name;
    void (*call)(void);
} turns[] = {
    {"first-host", first_host},
    {"middle-host", middle_host},
    {"last-host", last_host},
    {"remove-rule", remove_rule},
    {"parse-host", parse_host},
    {"parse-rule", parse_rule},
    {"edit-4", edit_4},
    {"edit-4-work", edit_4_work},
    {"edit-5", edit_5},
    {"edit-6", edit_6},
    {"edit-8", edit_8},
    {"edit-9-first", edit_9_first},
    {"edit-9-last", edit_9_last},
    {"copy-tree", copy_tree},
    {"copy-all", copy_all},
};

enum { TURNS = sizeof turns / sizeof turns[0] };

int main(int argc, char **argv)
{
    struct timed calls[TURNS];
    FILE *file = argc > 1 ? fopen(argv[1], "rb") : NULL;
    if (file == NULL)
        return 1;
    image_len = fread(image, 1, sizeof image, file);
    book.count = fread(book.bytes, TOKEN, BOOK / TOKEN, stdin);
    kindlesap_prepare(image, image_len, tables, sizeof tables, reply, sizeof reply);
    choose_edits();
    parse_into(parsed, &book);
    for (int k = 0; k < TURNS; k++)
        calls[k].call = turns[k].call;
    timing(calls, TURNS, 40, 20);
    for (int k = 0; k < TURNS; k++)
        printf("%s %.0f%s", turns[k].name, calls[k].nanos, k + 1 < TURNS ? " " : "\n");
    middle_host();
    wrong |= !reads(&of_middle);
    remove_rule();
    wrong |= !reads(&of_rule);
    return wrong;
}
